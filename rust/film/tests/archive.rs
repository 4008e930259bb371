//! The archive: what was stored once comes out of the same messages and received rows at any later time, byte for byte.

mod common;

use std::fs;
use std::path::{Path, PathBuf};

use common::{board, film, folder, text};

/// The stored films: the name of the archive, its film, and the layout.
const STORED: [(&str, &str, &str); 3] = [
    ("ecc83-bcu-n60", "ecc83-bcu-n60.pbm", "--layout 5,3,4,1"),
    ("rs232-silk-n60", "rs232-silk-n60.pbm", "--layout 2,2,7,3"),
    ("coldfire-fcu-n378", "coldfire-fcu-n378.pbm", ""),
];

fn stored(name: &str, ending: &str) -> PathBuf {
    Path::new(env!("CARGO_MANIFEST_DIR")).join("archive").join(format!("{name}.{ending}"))
}

/// Are these the bytes that are stored?
fn same(name: &str, ending: &str, found: &Path) {
    let path = stored(name, ending);
    assert!(fs::read(&path).unwrap() == fs::read(found).unwrap(), "{} is not what comes out now", path.display());
}

#[test]
fn the_messages_are_the_stored_ones() {
    let folder = folder("archive-messages");
    for (name, file, layout) in STORED {
        let words = format!("write {} {layout} --format 1 -o {name}.rsm", board(file).display());
        assert!(film(&folder, &words).status.success());
        same(name, "rsm", &folder.join(format!("{name}.rsm")));
    }
}

#[test]
fn the_lists_and_films_are_the_stored_ones() {
    let folder = folder("archive-lists");
    for (name, _, _) in STORED {
        let (messages, received) = (stored(name, "rsm"), stored(name, "rx"));
        let words = format!("list {} {} --patience 0 --lists lists -o out", messages.display(), received.display());
        let output = film(&folder, &words);
        assert!(matches!(output.status.code(), Some(0 | 1)), "{}", text(&output.stderr));
        same(name, "lists.txt", &folder.join("lists"));
        same(name, "pbm", &folder.join("out"));
    }
}
