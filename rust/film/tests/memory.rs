//! Films of many rows are listed in little memory: what is kept are the files and the film that is made, and no list longer
//! than it is needed.

mod common;

use std::fs;
use std::path::Path;
use std::process::{Command, Output};

use common::{ends, folder, text, FILM};

/// The address space that the tool may have in these tests, in bytes. All lists together would take more.
const LIMIT: usize = 96 << 20;

/// Runs the tool with so little memory.
fn limited(folder: &Path, words: &str) -> Output {
    let limit = format!("--as={LIMIT}");
    let mut command = Command::new("prlimit");
    // One arena, since each takes address space that it does not use.
    command.env("MALLOC_ARENA_MAX", "1").arg(limit).arg(FILM).args(words.split_whitespace());
    command.current_dir(folder).output().unwrap()
}

/// A film of 2,040 columns, all black, and what is left of it.
fn black(name: &str, rows: usize, lost: usize) -> std::path::PathBuf {
    let folder = folder(name);
    let film = [format!("P4\n2040 {rows}\n").as_bytes(), &vec![0xFF; 255 * rows]].concat();
    fs::write(folder.join("film.pbm"), film).unwrap();
    ends(0, &folder, "write film.pbm --layout 15,17,8,0 -o film.rsm");
    ends(0, &folder, &format!("drop film.pbm --layout 15,17,8,0 --burst {lost} -o film.rx"));
    folder
}

/// 4,000 lists of one row, for each of which 64 KB are lent.
#[test]
fn many_rows_take_little_memory() {
    let folder = black("many-rows", 4000, 1);
    for patience in [0, 60] {
        let output = limited(&folder, &format!("list film.rsm film.rx --patience {patience} --lists lists -o out.pbm"));
        assert_eq!(output.status.code(), Some(0), "{}", text(&output.stderr));
        ends(0, &folder, "check film.pbm out.pbm");
    }
}

/// 500 lists that are full: 64 KB each, and as text twice as much.
#[test]
fn long_lists_take_little_memory() {
    let folder = black("long-lists", 500, 4);
    let output = limited(&folder, "list film.rsm film.rx --lists lists -o out.pbm");
    let said = text(&output.stderr);
    assert_eq!(output.status.code(), Some(1), "{said}");
    assert!(text(&output.stdout).contains("refused: more rows than a list holds (9): 500"), "{}", text(&output.stdout));
    let lists = fs::read_to_string(folder.join("lists")).unwrap();
    assert_eq!(lists.lines().count(), 500 * (1 + 65_536 / 255));
}
