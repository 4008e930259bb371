//! Bad files are refused: status 2, one line that names the file, for messages and received rows also the byte, and nothing
//! is written.

mod common;

use std::fs;
use std::path::Path;

use common::{ends, folder, made_up, refused};

/// The files of a small film.
fn files(name: &str) -> std::path::PathBuf {
    let folder = folder(name);
    fs::write(folder.join("film.pbm"), made_up(60, 3)).unwrap();
    ends(0, &folder, "write film.pbm --layout 5,3,4,4 --format 1 -o film.rsm");
    ends(0, &folder, "drop film.pbm --layout 5,3,4,4 --burst 2 -o film.rx");
    folder
}

/// Writes bytes as `bad`, with the checksum that fits what stands before it.
fn put(folder: &Path, bytes: &[u8]) {
    let body = &bytes[..bytes.len() - 4];
    fs::write(folder.join("bad"), [body, &container::crc32(body).to_be_bytes()].concat()).unwrap();
}

fn nothing_is_written(folder: &Path) {
    assert!(!folder.join("out").exists());
    assert!(common::partial_files(folder).is_empty());
}

#[test]
fn bad_messages() {
    let folder = files("bad-messages");
    let good = fs::read(folder.join("film.rsm")).unwrap();
    for (place, byte, said) in [
        (0, b'X', "bad: byte 0: this is no file of the messages"),
        (5, 9, "bad: byte 4: version 9"),
        (9, 0, "bad: byte 6: the width is 0"),
        (13, 0, "bad: byte 10: the height is 0"),
        (16, 200, "bad: byte 14: no row has the layout"),
        (19, 61, "bad: byte 18: the bits of a row is 61"),
        (23, 2, "bad: byte 20: the number of panels is 2"),
        (25, 1, "bad: byte 24: the pad is 1"),
        (29, 4, "bad: byte 26: the number of messages is 4"),
        (31, 8, "bad: byte 30: the message of row 0 has 8 bytes"),
        (32, 0, "bad: byte 32: the message of row 0 does not start with the mark"),
        (37, 6, "bad: byte 37: the message of row 0 has another layout"),
        // The first block sum becomes 15, and a block has 12 bits.
        (41, 0xFF, "bad: byte 32: the message of row 0 is refused: a sum above the length of its string (5)"),
    ] {
        let mut bytes = good.clone();
        bytes[place] = byte;
        put(&folder, &bytes);
        for words in ["list bad film.rx -o out", "show bad"] {
            let line = refused(&folder, words);
            assert!(line.contains(said), "{line}");
        }
    }
    // A spare bit of the last message, and a message one byte short.
    let mut bytes = good.clone();
    bytes[good.len() - 5] |= 1;
    put(&folder, &bytes);
    assert!(refused(&folder, "list bad film.rx -o out")
        .contains("the message of row 2 is refused: a spare bit of the message is 1 (6)"));
    let mut bytes = good.clone();
    bytes[31] -= 1;
    bytes.remove(47);
    put(&folder, &bytes);
    assert!(refused(&folder, "list bad film.rx -o out")
        .contains("byte 32: the message of row 0 is refused: message length not the one its layout gives (4)"));
    // In version 2 another message, though a good one, is not that of the film.
    ends(0, &folder, "write film.pbm --layout 5,3,4,4 -o film.rsm");
    let mut bytes = fs::read(folder.join("film.rsm")).unwrap();
    let place = bytes.len() - 8;
    bytes[place - 2] ^= 0x10;
    put(&folder, &bytes);
    let line = refused(&folder, "list bad film.rx -o out");
    assert!(line.contains(&format!("bad: byte {place}: the identity of the film is ")), "{line}");
    nothing_is_written(&folder);
}

#[test]
fn damaged_and_cut_files() {
    let folder = files("damaged");
    for (name, words) in [("film.rsm", "list bad film.rx -o out"), ("film.rx", "list film.rsm bad -o out")] {
        let good = fs::read(folder.join(name)).unwrap();
        let end = good.len();
        for (bytes, said) in [
            (good[..end - 1].to_vec(), format!("byte {}: the file ends, 1 byte short of the checksum", end - 1)),
            (good[..3].to_vec(), String::from("byte 3: the file ends, 1 byte short of the mark")),
            (vec![], String::from("byte 0: the file ends")),
            ([&good[..], b"\n"].concat(), format!("byte {end}: the file should end here")),
            ([&good[..end - 1], &[good[end - 1] ^ 1]].concat(), format!("byte {}: the checksum is", end - 4)),
        ] {
            fs::write(folder.join("bad"), bytes).unwrap();
            let line = refused(&folder, words);
            assert!(line.contains(&said), "{line}");
        }
    }
    nothing_is_written(&folder);
}

#[test]
fn bad_received_rows() {
    let folder = files("bad-received");
    let good = fs::read(folder.join("film.rx")).unwrap();
    for (place, byte, said) in [
        (3, b'M', "bad: byte 3: this is no file of received rows"),
        (5, 0, "bad: byte 4: version 0"),
        (6, 0xFF, "bad: byte 6: rows of"),
        (11, 4, "bad: byte"),
        (21, 0xFF, "bad: byte 21: a bit beyond the 58 bits of row 0 of the line is 1"),
    ] {
        let mut bytes = good.clone();
        bytes[place] = byte;
        put(&folder, &bytes);
        let line = refused(&folder, "list film.rsm bad -o out");
        assert!(line.contains(said), "{line}");
    }
    nothing_is_written(&folder);
}

#[test]
fn bad_films() {
    let folder = files("bad-films");
    for bytes in
        [&b""[..], b"P5 1 1 255\n0", b"P4 9", b"P4 9 9\n123", b"P4 0 1\n", b"P4 4000000000 4000000000\n0", b"P1 1 1\n7"]
    {
        fs::write(folder.join("bad"), bytes).unwrap();
        for words in ["write bad -o out", "drop bad --burst 1 -o out", "check film.pbm bad", "soak --rows 1 bad"] {
            assert!(refused(&folder, words).starts_with("film: bad: "));
        }
    }
    nothing_is_written(&folder);
}

/// A plain film with a digit too many, or one that is none, is refused by its byte, and comments among its digits and
/// behind the size of a raw film are passed over.
#[test]
fn films_as_netpbm_reads_them() {
    let folder = folder("netpbm");
    for (bytes, said) in [
        (
            &b"P1\n4 2\n0 1 1 0 1\n1 0 0 1\n"[..],
            "film: bad: byte 23: the film ends before this, but the file goes on\n",
        ),
        (b"P1\n4 2\n0 1 2 0\n1 0 0 1\n", "film: bad: byte 11: '2' where 0 or 1 should be\n"),
        (b"P1\n4 2\n0 1 1 0\n1 0 0\n", "film: bad: byte 21: the file ends within the film\n"),
        (b"P4\n4 2\n\x60\x90\0", "film: bad: byte 9: the film ends before this, but the file goes on\n"),
    ] {
        fs::write(folder.join("bad"), bytes).unwrap();
        assert_eq!(refused(&folder, "write bad -o out"), said);
    }
    nothing_is_written(&folder);
    fs::write(folder.join("plain.pbm"), "P1\n4 2\n0 1 # the first row: 0110\n1 0 10#01\n01\n").unwrap();
    fs::write(folder.join("raw.pbm"), b"P4\n4 2# four columns\n\x60\x90").unwrap();
    ends(0, &folder, "check plain.pbm raw.pbm");
}
