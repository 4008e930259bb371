//! What the tests of the tool share.
#![allow(dead_code)]

use std::fs;
use std::io::Write;
use std::os::unix::fs::PermissionsExt;
use std::path::{Path, PathBuf};
use std::process::{Command, Output, Stdio};

/// The program that is tested.
pub const FILM: &str = env!("CARGO_BIN_EXE_film");

/// A folder for the files of one test, empty at its start.
pub fn folder(name: &str) -> PathBuf {
    let folder = Path::new(env!("CARGO_TARGET_TMPDIR")).join(name);
    let _ = fs::remove_dir_all(&folder);
    fs::create_dir_all(&folder).unwrap();
    folder
}

/// A film of the tree.
pub fn board(name: &str) -> PathBuf {
    Path::new(env!("CARGO_MANIFEST_DIR")).join("../films").join(name)
}

/// Runs the tool in a folder, with words as they stand on a command line.
pub fn film(folder: &Path, words: &str) -> Output {
    Command::new(FILM).current_dir(folder).args(words.split_whitespace()).stdin(Stdio::null()).output().unwrap()
}

/// The same with bytes on standard input.
pub fn film_with(folder: &Path, words: &str, input: &[u8]) -> Output {
    let mut child = Command::new(FILM)
        .current_dir(folder)
        .args(words.split_whitespace())
        .stdin(Stdio::piped())
        .stdout(Stdio::piped())
        .stderr(Stdio::piped())
        .spawn()
        .unwrap();
    child.stdin.take().unwrap().write_all(input).unwrap();
    child.wait_with_output().unwrap()
}

/// Runs the tool, which must end with this status, and answers what it printed.
pub fn ends(status: i32, folder: &Path, words: &str) -> String {
    let output = film(folder, words);
    let said = text(&output.stderr);
    assert_eq!(output.status.code(), Some(status), "film {words}\n{}{said}", text(&output.stdout));
    text(&output.stdout)
}

/// Runs the tool, which must refuse with status 2 and one line on standard error, and answers that line.
pub fn refused(folder: &Path, words: &str) -> String {
    let output = film(folder, words);
    let said = text(&output.stderr);
    assert_eq!(output.status.code(), Some(2), "film {words}\n{said}");
    assert!(said.starts_with("film: ") && said.lines().count() == 1, "{said}");
    said
}

pub fn text(bytes: &[u8]) -> String {
    String::from_utf8_lossy(bytes).into_owned()
}

/// A plain PBM film of this size, with runs that no two rows share.
pub fn made_up(width: usize, height: usize) -> String {
    let bit = |row: usize, column: usize| usize::from((column * column / 7 + row * (column / 5 + 3)) % 9 < 4);
    let row = |row| (0..width).map(|column| format!("{}\n", bit(row, column))).collect::<String>();
    format!("P1\n{width} {height}\n{}", (0..height).map(row).collect::<String>())
}

/// A program that is put in the place of the worker.
pub fn worker(folder: &Path, script: &str) -> PathBuf {
    let path = folder.join("worker.sh");
    fs::write(&path, format!("#!/bin/sh\n{script}\n")).unwrap();
    fs::set_permissions(&path, fs::Permissions::from_mode(0o755)).unwrap();
    path
}

/// The names of the files in a folder that were not renamed.
pub fn partial_files(folder: &Path) -> Vec<PathBuf> {
    let names = fs::read_dir(folder).unwrap().map(|entry| entry.unwrap().path());
    names.filter(|path| path.to_string_lossy().contains(".partial-")).collect()
}
