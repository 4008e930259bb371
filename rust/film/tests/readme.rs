//! What README says of an archive of films is what happens.

mod common;

use std::fs;
use std::path::{Path, PathBuf};
use std::process::{Command, Stdio};

use common::{ends, folder, made_up, FILM};

/// Stands in for GNU parallel: runs the command for each name, and notes the name where it went well.
const PARALLEL: &str = r#"#!/bin/sh
[ "$1" = -0 ] || exit 99
failed=0
for name in $(tr '\0' ' '); do
    command=$(printf '%s' "$2" | sed -e "s/{\.}/${name%.*}/g" -e "s/{}/$name/g")
    if sh -c "$command"; then echo "$name" >>done.txt; else failed=$((failed + 1)); fi
done
exit "$failed"
"#;

/// The block of README that runs over an archive.
fn block() -> String {
    let document = fs::read_to_string(Path::new(env!("CARGO_MANIFEST_DIR")).join("../../README.md")).unwrap();
    let blocks = document.split("```sh\n").skip(1).filter_map(|rest| rest.split("```").next());
    blocks.into_iter().find(|block| block.contains("| parallel ")).expect("a block with parallel").to_string()
}

/// Runs the block in a folder; answers its status, and the films that were done.
fn run(folder: &Path) -> (Option<i32>, String) {
    let _ = fs::remove_file(folder.join("done.txt"));
    let programs = Path::new(FILM).parent().unwrap();
    let path = format!("{}:{}:{}", folder.join("bin").display(), programs.display(), std::env::var("PATH").unwrap());
    let mut command = Command::new("sh");
    command.arg("-c").arg(block()).current_dir(folder).env("PATH", path).stdin(Stdio::null()).stderr(Stdio::null());
    (command.status().unwrap().code(), fs::read_to_string(folder.join("done.txt")).unwrap_or_default())
}

/// Adds a film to the archive.
fn add(folder: &Path, name: &str, rows: usize) {
    fs::write(folder.join("film.pbm"), made_up(60, rows)).unwrap();
    ends(0, folder, &format!("write film.pbm -o {name}.rsm"));
    ends(0, folder, &format!("drop film.pbm --burst 1 -o {name}.rx"));
}

/// A folder for an archive, with the program that its films are done by.
fn archive(name: &str) -> PathBuf {
    let folder = folder(name);
    fs::create_dir(folder.join("bin")).unwrap();
    let parallel = common::worker(&folder.join("bin"), "");
    fs::write(&parallel, PARALLEL).unwrap();
    fs::rename(parallel, folder.join("bin/parallel")).unwrap();
    folder
}

#[test]
fn an_archive_is_done_by_what_is_missing() {
    let folder = archive("archive-jobs");
    add(&folder, "a", 2);
    add(&folder, "c", 3);
    assert_eq!(run(&folder), (Some(0), String::from("a.rsm\nc.rsm\n")));
    let whole = fs::read(folder.join("c.out.pbm")).unwrap();
    assert!(folder.join("a.lists.txt").exists() && folder.join("c.lists.txt").exists());
    assert_eq!(run(&folder), (Some(0), String::new()));

    // One film is new, another was not finished, and of a third nothing arrived yet.
    add(&folder, "b", 2);
    fs::remove_file(folder.join("c.out.pbm")).unwrap();
    add(&folder, "d", 2);
    fs::rename(folder.join("d.rx"), folder.join("later")).unwrap();
    assert_eq!(run(&folder), (Some(1), String::from("b.rsm\nc.rsm\n")));
    assert_eq!(fs::read(folder.join("c.out.pbm")).unwrap(), whole);
    fs::rename(folder.join("later"), folder.join("d.rx")).unwrap();
    assert_eq!(run(&folder), (Some(0), String::from("d.rsm\n")));
}

/// A film whose run was cut short is done again: what it wrote does not stand under the name of the output. This worker
/// answers one row, and cannot be started again.
#[test]
fn an_unfinished_film_is_done_again() {
    let folder = archive("archive-unfinished");
    add(&folder, "a", 2);
    let script = common::worker(&folder, "rm \"$0\"\nhead -c 20 /dev/zero\nhead -c 1 >/dev/null");
    let words = format!("list a.rsm a.rx -o a.out.pbm --lists a.lists.txt --jobs 1 --worker {}", script.display());
    ends(2, &folder, &words);
    assert!(fs::read_to_string(folder.join("a.lists.txt.unfinished")).unwrap().ends_with(" not done\n"));
    assert_eq!(run(&folder), (Some(0), String::from("a.rsm\n")));
    ends(0, &folder, "check film.pbm a.out.pbm");
    assert!(!fs::read_to_string(folder.join("a.lists.txt")).unwrap().contains("not done"));
    assert_eq!(run(&folder), (Some(0), String::new()));
}

/// Where the film stands, its lists do: they are written first.
#[test]
fn a_film_is_written_behind_its_lists() {
    let folder = folder("lists-first");
    add(&folder, "a", 2);
    let line = common::refused(&folder, "list a.rsm a.rx --quiet --lists /dev/full -o a.out.pbm");
    assert!(line.contains("/dev/full: ") && !folder.join("a.out.pbm").exists(), "{line}");
}
