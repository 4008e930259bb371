//! Document 01's marked cases, with the paper's own values.

use dairyhour::{list, mend, read, write, Layout, Refusal};
use reference::bits::pack;
use reference::message::encode;
use tester::{agree_list, Received};

const LAYOUT: Layout = Layout { l1: 5, l2: 3, nc: 4, r: 4 };
const ROW: [u8; 8] = [0x4A, 0x50, 0x3E, 0x77, 0x10, 0x24, 0x46, 0x80];
const MESSAGE: [u8; 16] =
    [0x52, 0x53, 0x4D, 0x00, 0x01, 0x05, 0x03, 0x04, 0x04, 0xA6, 0x34, 0xB5, 0xD0, 0x96, 0xDA, 0x40];

#[test]
fn case_1() {
    let mut message = [0; 16];
    assert_eq!(write(LAYOUT, &ROW, &mut message), Ok(16));
    let mut fields = [0; 12];
    assert_eq!(read(&message, &mut fields), Ok(LAYOUT));
    assert_eq!(fields, [10, 6, 3, 4, 11, 11, 20, 4, 11, 6, 13, 2]);
}

#[test]
fn case_2() {
    let mut message = [0; 16];
    assert_eq!(write(LAYOUT, &ROW, &mut message), Ok(16));
    assert_eq!(message, MESSAGE);
}

fn bits(digits: &str) -> Vec<bool> {
    digits.chars().map(|digit| digit == '1').collect()
}

/// The message with these layout numbers, sums and checks.
fn message(layout: [usize; 4], numbers: &[u16]) -> Vec<u8> {
    let [l1, l2, nc, r] = layout;
    encode(&reference::Layout::new(l1, l2, nc, r), numbers)
}

/// Cases 3 to 8: layout, sums and checks, what was received, and the rows that are listed.
type ListCase = ([usize; 4], &'static [u16], &'static str, &'static [&'static str]);

const LISTS: [ListCase; 6] = [
    ([1, 1, 3, 0], &[0, 0], "", &["000", "101"]),
    ([1, 1, 3, 0], &[0, 0], "00", &["000"]),
    ([1, 1, 3, 0], &[0, 1], "", &[]),
    ([1, 1, 3, 1], &[0, 0, 5], "", &["101"]),
    ([2, 1, 4, 0], &[2, 0, 1], "001111", &["01001111"]),
    ([2, 1, 4, 0], &[2, 0, 2], "001111", &["00110110", "00111001"]),
];

#[test]
fn cases_3_to_8() {
    for (layout, numbers, received, rows) in LISTS {
        let mut out = [0x5A; 4];
        let answer = list(&message(layout, numbers), &pack(&bits(received)), received.len(), &mut out);
        assert_eq!(answer, Ok(rows.len()), "{layout:?} {numbers:?} {received}");
        let mut due: Vec<u8> = rows.iter().flat_map(|row| pack(&bits(row))).collect();
        due.resize(4, 0x5A);
        assert_eq!(out[..], due, "{layout:?} {numbers:?} {received}");
    }
}

/// "With a list slice of one byte, refusal 9 and that byte 36."
#[test]
fn case_8_with_a_slice_of_one_byte() {
    let mut out = [0x5A];
    assert_eq!(list(&message([2, 1, 4, 0], &[2, 0, 2]), &[0x3C], 6, &mut out), Err(Refusal::ListFull));
    assert_eq!(out, [0x36]);
}

#[test]
fn case_9() {
    let mut string = [0];
    assert_eq!(mend(4, 2, &[0b0100_0000], &mut string), Ok(()));
    assert_eq!(string, [0b0100_0000]);
    assert_eq!(mend(4, 2, &[0b1110_0000], &mut string), Ok(()));
    assert_eq!(string, [0b1101_0000]);
}

#[test]
fn case_10() {
    let mut string = [0];
    assert_eq!(mend(1, 1, &[], &mut string), Ok(()));
    assert_eq!(string, [0b1000_0000]);
}

#[test]
fn case_11() {
    let mut fields = [7; 12];
    let mut sum_13 = MESSAGE;
    sum_13[9] = 0xD6;
    assert_eq!(read(&sum_13, &mut fields), Err(Refusal::Sum));
    let mut spare = MESSAGE;
    spare[15] = 0x41;
    assert_eq!(read(&spare, &mut fields), Err(Refusal::SpareBit));
    assert_eq!(fields, [7; 12]);
}

/// "l1 × l2 = 15 with nc = 4 and r = 1 is legal, 16 is refused by 3."
#[test]
fn case_12_layouts() {
    let mut written = [0; 154];
    assert!(write(Layout { l1: 15, l2: 1, nc: 4, r: 1 }, &[0; 8], &mut written).is_ok());
    assert_eq!(write(Layout { l1: 16, l2: 1, nc: 4, r: 1 }, &[0; 8], &mut written), Err(Refusal::Layout));

    let row: Vec<bool> = (0..60).map(|place| place % 7 < 2).collect();
    let layout = reference::Layout::new(15, 1, 4, 1);
    let mut received = Received::own(&layout, &row, &row[1..]);
    assert_eq!(agree_list(&received, &received.judge_by_supersequences(), 8), Ok(1));
    received.message[5] = 16;
    assert_eq!(agree_list(&received, &received.judge_by_supersequences(), 8), Err(3));
}

/// "n − m = 12 is listed, 13 is refused by 7", for rows of 15 to 20 bits whose every row is tried.
#[test]
fn case_12_losses() {
    for (l1, l2, nc, r) in [(5, 1, 3, 1), (1, 5, 3, 0), (4, 1, 4, 2), (2, 2, 4, 1), (2, 3, 3, 0), (2, 2, 5, 1)] {
        let layout = reference::Layout::new(l1, l2, nc, r);
        let row: Vec<bool> = (0..layout.row_bits()).map(|place| place % 5 < 2).collect();
        let listed = Received::own(&layout, &row, &row[12..]);
        assert!(agree_list(&listed, &listed.judge(), 4096).is_ok());
        let refused = Received::own(&layout, &row, &row[13..]);
        assert_eq!(agree_list(&refused, &refused.judge(), 4096), Err(7));
    }
}
