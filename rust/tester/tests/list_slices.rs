//! List slices of all lengths: which rows they get, and what stays as it was.

use reference::bits::{bytes_for, digits, number};
use reference::limits::{LONGEST_LIST, MOST_LOSSES};
use reference::list::{judge_by, Question};
use reference::samples::{Kind, Losses};
use reference::sum::sum;
use reference::Layout;
use tester::{agree_list, Message, Received};

/// Every length from none to beyond the list, for lists of any size: a list that fits is counted, any other is
/// refused by 9 with the rows that fit.
#[test]
fn every_length_around_whole_rows() {
    let (mut counted, mut refused, mut longest) = (0, 0, 0);
    let small = |layout: &Layout| layout.row_bits() <= 12;
    for layout in Layout::every_legal().into_iter().filter(small) {
        for seed in 8_000_000..8_000_012 {
            let layout = Layout { r: seed as usize % 2, ..layout };
            let k = layout.row_bits().min(MOST_LOSSES - seed as usize % 3);
            let message = if seed % 6 == 5 { Message::Any } else { Message::Own };
            let received = Received::sample(&layout, Kind::Random, Losses::Uniform, k, message, seed);
            let judged = received.judge();
            let count = judged.rows.as_ref().map_or(0, Vec::len);
            for room in 0..=(count + 2) * bytes_for(layout.row_bits()) + 1 {
                let answer = agree_list(&received, &judged, room);
                assert_eq!(answer.is_ok(), room >= count * bytes_for(layout.row_bits()));
                counted += usize::from(answer.is_ok());
                refused += usize::from(answer == Err(9));
            }
            longest = longest.max(count);
        }
    }
    assert!(counted > 1_000 && refused > 1_000 && longest > 20);
}

/// A list of some two thousand rows, in slices from none to all.
#[test]
fn a_long_list() {
    let layout = Layout::new(4, 1, 8, 0);
    let received = Received::sample(&layout, Kind::Random, Losses::Uniform, MOST_LOSSES, Message::Own, 9_000_000);
    let judged = received.judge_by_supersequences();
    let count = judged.rows.as_ref().map_or(0, Vec::len);
    assert!(count > 1_000);
    for room in [0, 4095, 4 * count - 1, 4 * count, LONGEST_LIST + 4] {
        assert_eq!(agree_list(&received, &judged, room).is_ok(), room >= 4 * count);
    }
}

/// 128 blocks of one chunk. A row takes 128 bytes, and 512 rows take all the bytes of a slice that are used.
const TALL: Layout = Layout { l1: 128, l2: 1, nc: 8, r: 0 };

/// The rows of at most `ones` ones whose chunks, which are its blocks, all have the sum 0, in dictionary order: the first chunks are in
/// `row`, and those behind them are put there in turn.
fn rows_of_few_ones(row: &mut Vec<bool>, ones: u32, values: &[Vec<bool>], rows: &mut Vec<Vec<bool>>) {
    if row.len() == TALL.row_bits() {
        rows.push(row.clone());
        return;
    }
    for value in values {
        let own = (number(value) as u32).count_ones();
        if own <= ones {
            row.extend(value);
            rows_of_few_ones(row, ones - own, values, rows);
            row.truncate(row.len() - TALL.nc);
        }
    }
}

/// The list of a blank row that lost bits, with all sums 0. Its rows are the received zeros with as many bits put in
/// as were lost, so they have at most that many ones.
fn by_few_ones(question: &Question) -> Vec<Vec<bool>> {
    let values: Vec<Vec<bool>> =
        (0..1 << TALL.nc).map(|value| digits(value, TALL.nc)).filter(|value| sum(value) == 0).collect();
    let mut rows = Vec::new();
    rows_of_few_ones(&mut Vec::new(), question.losses() as u32, &values, &mut rows);
    rows.retain(|row| question.is_consistent(row));
    rows
}

/// More rows than 65,536 bytes hold: longer slices get no more rows, and the bytes beyond stay as they are, although
/// the whole list would fit.
#[test]
fn only_the_first_65536_bytes_are_used() {
    let blank = vec![false; TALL.row_bits()];
    let received = Received::own(&TALL, &blank, &blank[4..]);
    let judged = judge_by(by_few_ones, &received.message, &received.row, received.m);
    let count = judged.rows.as_ref().map_or(0, Vec::len);
    assert!(count > 1_000);
    for room in [LONGEST_LIST - 1, 128 * count] {
        assert_eq!(agree_list(&received, &judged, room), Err(9));
        assert_eq!(judged.listed(room).written.len(), if room < LONGEST_LIST { 511 * 128 } else { 512 * 128 });
    }
}

/// A short list in a slice that is longer than what is used.
#[test]
fn a_short_list_in_a_very_long_slice() {
    for seed in 9_100_000..9_100_020 {
        let received = Received::any(&Layout::new(2, 2, 3, 1), seed);
        assert!(agree_list(&received, &received.judge(), LONGEST_LIST + 1_000).is_ok());
    }
}
