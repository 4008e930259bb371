//! The worked example of docs/FORMAT.md is what the tool does.

mod common;

use std::fs;
use std::path::Path;

use common::{ends, folder};

/// The blocks of example text in the document, in their order.
fn blocks() -> Vec<String> {
    let path = Path::new(env!("CARGO_MANIFEST_DIR")).join("../../docs/FORMAT.md");
    let document = fs::read_to_string(path).unwrap();
    document.split("```text\n").skip(1).filter_map(|rest| rest.split("```").next().map(String::from)).collect()
}

/// The bytes of a block: hexadecimal in the first 36 columns, words behind it.
fn bytes(block: &str) -> Vec<u8> {
    let columns = |line: &str| line.chars().take(36).collect::<String>();
    let hex: Vec<String> = block.lines().map(columns).collect();
    hex.join(" ").split_whitespace().map(|byte| u8::from_str_radix(byte, 16).unwrap()).collect()
}

#[test]
fn the_worked_example() {
    let folder = folder("format");
    let blocks = blocks();
    assert_eq!(blocks.len(), 4);
    fs::write(folder.join("small.pbm"), &blocks[0]).unwrap();
    ends(0, &folder, "write small.pbm --layout 2,1,4,1 -o small.rsm");
    assert_eq!(fs::read(folder.join("small.rsm")).unwrap(), bytes(&blocks[1]));
    fs::write(folder.join("small.rx"), bytes(&blocks[2])).unwrap();
    ends(0, &folder, "list small.rsm small.rx -o recovered.pbm --lists lists.txt");
    assert_eq!(fs::read_to_string(folder.join("lists.txt")).unwrap(), blocks[3]);
    ends(0, &folder, "check small.pbm recovered.pbm");
}
