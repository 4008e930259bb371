//! Films are written, robbed of bits and recovered.

mod common;

use std::fs;

use common::{board, ends, folder, made_up};

/// One lost bit leaves one row: every film comes back whole.
#[test]
fn one_bit_lost_in_each_row() {
    let folder = folder("one-bit");
    for (name, layout) in [
        ("ecc83-bcu-n60.pbm", ""),
        ("rs232-silk-n60.pbm", "--layout 2,2,7,4"),
        ("ecc83-bcu-n378.pbm", "--layout 9,7,6,0"),
        ("coldfire-fcu-n378.pbm", ""),
    ] {
        fs::copy(board(name), folder.join("film.pbm")).unwrap();
        ends(0, &folder, &format!("write film.pbm {layout} -o film.rsm"));
        ends(0, &folder, "check film.pbm film.rsm");
        ends(0, &folder, &format!("drop film.pbm {layout} --seed 7 --burst 1 -o film.rx"));
        let report = ends(0, &folder, "list film.rsm film.rx --sent film.pbm -o out.pbm");
        assert!(report.contains("several rows       0\n"), "{report}");
        assert_eq!(fs::read(folder.join("film.pbm")).unwrap(), fs::read(folder.join("out.pbm")).unwrap(), "{name}");
    }
}

/// Widths without a layout are padded, and films wider than a row can be are cut into panels.
#[test]
fn every_width() {
    let folder = folder("widths");
    for (width, cut) in [
        (1, "padded by 2 columns"),
        (7, "\n"),
        (101, "padded by 4 columns"),
        (2039, "padded by 1 column"),
        (2040, "\n"),
        (2041, "2 panels, padded by 7 columns"),
        (4100, "3 panels"),
    ] {
        fs::write(folder.join("film.pbm"), made_up(width, 4)).unwrap();
        let report = ends(0, &folder, "write film.pbm -o film.rsm");
        assert!(report.contains(cut), "{width}: {report}");
        ends(0, &folder, "drop film.pbm --burst 1 -o film.rx");
        ends(0, &folder, "list film.rsm film.rx --jobs 1 -o out.pbm");
        ends(0, &folder, "check film.pbm out.pbm");
    }
}

/// More losses: whatever the lists hold, the sent rows are among them.
#[test]
fn more_bits_lost() {
    let folder = folder("more-bits");
    let film = board("ecc83-bcu-n60.pbm");
    let film = film.to_string_lossy();
    for (layout, line) in [("5,3,4,12", "--rate 0.03"), ("3,4,5,2", "--burst 3"), ("5,2,6,0", "--rate 0.02")] {
        ends(0, &folder, &format!("write {film} --layout {layout} -o film.rsm"));
        ends(0, &folder, &format!("drop {film} --layout {layout} {line} -o film.rx"));
        let words = format!("list film.rsm film.rx --sent {film} --json -o out.pbm");
        let output = common::film(&folder, &words);
        let report = common::text(&output.stdout);
        assert!(report.contains("\"missing\":0,"), "{report}");
        assert!(report.contains("\"rows\":54,") && report.contains("\"given_up\":0,\"worker_ended\":0,"), "{report}");
    }
}

/// Without patience the rows are listed in the process itself, and the answer is the same.
#[test]
fn with_and_without_workers() {
    let folder = folder("without-workers");
    let film = board("coldfire-fcu-n378.pbm");
    let film = film.to_string_lossy();
    ends(0, &folder, &format!("write {film} -o film.rsm"));
    ends(0, &folder, &format!("drop {film} --burst 2 -o film.rx"));
    for (patience, name) in [("0", "without"), ("600", "with")] {
        common::film(&folder, &format!("list film.rsm film.rx --patience {patience} -o {name}.pbm --lists {name}.txt"));
    }
    for ending in ["pbm", "txt"] {
        let bytes = |name: &str| fs::read(folder.join(format!("{name}.{ending}"))).unwrap();
        assert_eq!(bytes("without"), bytes("with"));
    }
}

/// A film whose message belongs to another one is not the same.
#[test]
fn differences_are_found() {
    let folder = folder("differences");
    fs::write(folder.join("one.pbm"), "P1\n8 2\n0 0 1 1 0 1 1 0\n1 1 1 1 0 0 0 0\n").unwrap();
    fs::write(folder.join("two.pbm"), "P1\n8 2\n0 0 1 1 1 0 0 1\n1 1 1 1 0 0 0 0\n").unwrap();
    let report = ends(1, &folder, "check one.pbm two.pbm");
    assert_eq!(report, "row 0: 4 bits differ, first at column 4\n1 row of 2 rows of 8 bits differs\n");
    let report = ends(1, &folder, "check one.pbm two.pbm --json");
    assert!(report.contains("\"different_rows\":1,\"different_bits\":4,"), "{report}");
    ends(0, &folder, "write one.pbm --layout 2,1,4,1 -o one.rsm");
    ends(0, &folder, "check one.pbm one.rsm --quiet");
    let report = ends(1, &folder, "check two.pbm one.rsm");
    assert_eq!(report, "row 0: another message\n1 row of 2 messages differs\n");
}

/// A film that comes as PNG or TIFF is the same film.
#[test]
fn films_from_other_files() {
    let folder = folder("other-files");
    fs::write(folder.join("film.pbm"), "P1\n9 2\n1 0 0 0 0 0 0 0 1\n0 1 0 0 0 0 0 0 0\n").unwrap();
    let mut bytes = Vec::new();
    let mut encoder = png::Encoder::new(&mut bytes, 9, 2);
    encoder.set_depth(png::BitDepth::One);
    encoder.write_header().unwrap().write_image_data(&[0x7F, 0x7F, 0xBF, 0xFF]).unwrap();
    fs::write(folder.join("film.png"), bytes).unwrap();
    // The tags of the width, the height, that 0 is white, where the only strip is, and its length; then the strip.
    let tags = [(256, 9), (257, 2), (262, 0), (273, 74), (279, 4)];
    let mut bytes = [&b"II*\0\x08\0\0\0"[..], &[tags.len() as u8, 0]].concat();
    for (tag, value) in tags {
        bytes.extend([&u16::to_le_bytes(tag)[..], &[3, 0, 1, 0, 0, 0, value, 0, 0, 0]].concat());
    }
    bytes.extend([0, 0, 0, 0, 0x80, 0x80, 0x40, 0]);
    fs::write(folder.join("film.tif"), bytes).unwrap();
    ends(0, &folder, "write film.pbm -o film.rsm");
    for name in ["film.png", "film.tif"] {
        ends(0, &folder, &format!("check film.pbm {name}"));
        ends(0, &folder, &format!("check {name} film.rsm"));
        ends(0, &folder, &format!("write {name} -o other.rsm"));
        assert_eq!(fs::read(folder.join("film.rsm")).unwrap(), fs::read(folder.join("other.rsm")).unwrap(), "{name}");
    }
    for (bytes, what) in [
        (&b"P5 1 1 255\n0"[..], "a PGM of greys"),
        (b"\xFF\xD8\xFF\xE0", "a JPEG"),
        (b"GIF89a", "a GIF"),
        (b"DHRX\0\x01", "a file of received rows"),
        (b"word", "something else"),
    ] {
        fs::write(folder.join("other"), bytes).unwrap();
        let line = common::refused(&folder, "write other -o x.rsm");
        assert!(line.starts_with(&format!("film: other: byte 0: this is {what}, and a film is PBM")), "{line}");
    }
}
