//! Writing, compared with the reference.

use reference::bits::{bytes_for, digits, pack};
use reference::limits::{LONGEST_CHUNK, LONGEST_MESSAGE, MOST_CHECKS, SHORTEST_CHUNK};
use reference::random::Random;
use reference::Layout;
use tester::damage::misfits;
use tester::{agree_in_rooms, agree_on_the_least, agree_write, Write};

/// Every legal (l1, l2, nc) with no check, one, as many as there can be, and more checks than chunks.
#[test]
fn every_legal_layout() {
    let mut random = Random::new(1);
    for base in Layout::every_legal() {
        for r in [0, 1, MOST_CHECKS, random.below(MOST_CHECKS + 1), (base.chunks() + 1).min(MOST_CHECKS)] {
            let layout = Layout { r, ..base };
            let row = pack(&random.bits(layout.row_bits()));
            assert!(agree_write(&layout, &row, layout.message_bytes()).is_ok());
        }
    }
}

/// The blank row and the full one.
#[test]
fn all_bits_alike() {
    for base in Layout::every_legal() {
        for bit in [false, true] {
            let layout = Layout { r: MOST_CHECKS, ..base };
            let row = pack(&vec![bit; layout.row_bits()]);
            assert!(agree_write(&layout, &row, layout.message_bytes()).is_ok());
        }
    }
}

/// Every row of every layout with up to 12 bits.
#[test]
fn every_row_of_small_layouts() {
    for base in Layout::every_legal().into_iter().filter(|layout| layout.row_bits() <= 12) {
        for r in [0, 3, MOST_CHECKS] {
            let layout = Layout { r, ..base };
            for row in 0..1 << layout.row_bits() {
                let row = pack(&digits(row, layout.row_bits()));
                assert!(agree_write(&layout, &row, layout.message_bytes()).is_ok());
            }
        }
    }
}

/// Rows with a single one, at each place of the largest layouts: each place has its own part in two sums and
/// all checks.
#[test]
fn a_single_one_at_each_place() {
    for (l1, l2, nc) in
        [(15, 17, 8), (255, 1, 8), (1, 255, 8), (127, 1, 7), (9, 7, 6), (31, 1, 5), (5, 3, 4), (1, 7, 3)]
    {
        let layout = Layout::new(l1, l2, nc, MOST_CHECKS);
        for place in 0..layout.row_bits() {
            let mut bits = vec![false; layout.row_bits()];
            bits[place] = true;
            assert!(agree_write(&layout, &pack(&bits), layout.message_bytes()).is_ok());
        }
    }
}

/// Targets that are empty, one byte too short, exact and longer.
#[test]
fn targets() {
    let mut random = Random::new(2);
    for layout in Layout::every_legal_with_checks(&mut random) {
        let row = pack(&random.bits(layout.row_bits()));
        agree_in_rooms(&Write { layout: &layout, row: &row }, layout.message_bytes());
    }
}

/// Rows with other byte counts, each with targets that are long enough and too short.
#[test]
fn rows_of_another_byte_count() {
    let mut random = Random::new(3);
    for layout in Layout::every_legal_with_checks(&mut random) {
        let right = bytes_for(layout.row_bits());
        for count in [0, right - 1, right + 1, 2 * right, right + 256] {
            let row: Vec<u8> = (0..count).map(|_| random.number() as u8).collect();
            for room in [0, layout.message_bytes()] {
                assert_eq!(agree_write(&layout, &row, room), Err(8));
            }
        }
    }
}

/// Each spare bit of the row in turn is 1.
#[test]
fn spare_bits_of_the_row() {
    let mut random = Random::new(4);
    for layout in Layout::every_legal_with_checks(&mut random) {
        let row = pack(&random.bits(layout.row_bits()));
        for place in layout.row_bits()..8 * row.len() {
            let mut spoiled = row.clone();
            spoiled[place / 8] |= 0x80 >> (place % 8);
            for room in [0, layout.message_bytes()] {
                assert_eq!(agree_write(&layout, &spoiled, room), Err(8));
            }
        }
    }
}

/// Rows with other byte counts, and each spare bit in turn 1, with targets that are long enough and too short.
#[test]
fn rows_that_are_not_packed_so() {
    let mut random = Random::new(3);
    for layout in Layout::every_legal_with_checks(&mut random) {
        for row in misfits(&random.bits(layout.row_bits())) {
            for room in [0, layout.message_bytes()] {
                assert_eq!(agree_write(&layout, &row, room), Err(8));
            }
        }
    }
}

/// Every set of faults: the least number is answered.
#[test]
fn the_least_number_of_every_set_of_faults() {
    let layout = Layout::new(5, 3, 4, 4);
    let fit = (layout, vec![0x50; bytes_for(layout.row_bits())], layout.message_bytes());
    let spoil = |(layout, row, room): &mut (Layout, Vec<u8>, usize), number, way| match (number, way) {
        (3, 0) => layout.nc = LONGEST_CHUNK + 1,
        (3, _) => layout.r = MOST_CHECKS + 1,
        (8, 0) => row.push(0),
        (8, _) => row[7] |= 1,
        _ => *room = [0, *room - 1][way],
    };
    agree_on_the_least(&[3, 8, 10], &fit, spoil, |(layout, row, room)| agree_write(layout, row, *room).err());
}

/// Layout numbers just outside their bounds, numbers whose product wraps to a small one, and numbers that are
/// in bounds only if their high bits are lost. Rows and targets would be unfit too: 3 comes first.
#[test]
fn layouts_that_are_not_legal() {
    let wraps_to_1 = usize::MAX / 3 * 2 + 1; // three times this
    let small = [0, 1, 2, 3, 15, 16, 255, 256, 257];
    let large =
        [1 << 16, 1 << 31, 1 << 32, (1 << 32) + 1, wraps_to_1, 1 << 63, (1 << 63) + 1, usize::MAX - 1, usize::MAX];
    let lengths: Vec<usize> = small.into_iter().chain(large).collect();
    let widths = [0, 1, 2, 3, 4, 8, 9, 63, 64, 67, 256 + 4, (1 << 32) + 4, usize::MAX];
    let checks = [0, 1, 16, 17, 255, 256, 1 << 32, usize::MAX];
    let mut refused = 0;
    for l1 in &lengths {
        for l2 in &lengths {
            for nc in widths {
                for r in checks {
                    let layout = Layout::new(*l1, *l2, nc, r);
                    if layout.is_legal() {
                        continue;
                    }
                    for (row_bytes, room) in [(0, 0), (1, 20), (2, LONGEST_MESSAGE)] {
                        assert_eq!(agree_write(&layout, &vec![0; row_bytes], room), Err(3));
                        refused += 1;
                    }
                }
            }
        }
    }
    assert!(refused > 100_000);
}

/// The bound on chunks, from both sides, for each nc.
#[test]
fn the_bound_of_chunks() {
    for nc in SHORTEST_CHUNK..=LONGEST_CHUNK {
        let most = (1 << nc) - 1;
        for l1 in 1..=most + 1 {
            for l2 in [most / l1, most / l1 + 1] {
                let layout = Layout::new(l1, l2, nc, 1);
                let row = vec![0; bytes_for(l1 * l2 * nc)];
                assert_eq!(agree_write(&layout, &row, LONGEST_MESSAGE).is_ok(), l2 >= 1 && l1 * l2 <= most);
            }
        }
    }
}

/// The wrapper's longest message is long enough for every layout, and no longer than need be.
#[test]
fn the_longest_message() {
    let most = Layout::every_legal().into_iter().map(|base| Layout { r: MOST_CHECKS, ..base }.message_bytes()).max();
    assert_eq!(most, Some(dairyhour::LONGEST_MESSAGE));
}
