//! Document 01's "What leads the plotter astray": for each point, rows and losses for which a lister that gets the
//! point wrong answers another list.

use reference::bits::digits;
use reference::limits::{LONGEST_CHUNK, MOST_LOSSES, SHORTEST_CHUNK};
use reference::list::comes_from;
use reference::Layout;
use tester::{agree_list, Received};

/// The bits of a string of 0 and 1; spaces part the chunks.
fn bits(digits: &str) -> Vec<bool> {
    digits.chars().filter(|digit| *digit != ' ').map(|digit| digit == '1').collect()
}

/// The row without the bits at these places, counted from 0.
fn without(row: &[bool], lost: &[usize]) -> Vec<bool> {
    (0..row.len()).filter(|place| !lost.contains(place)).map(|place| row[place]).collect()
}

/// Lists what is left of a row beside its own message, as the reference does. The row is in the list.
fn lists_the_row(layout: &Layout, row: &[bool], left: &[bool]) -> usize {
    assert!(comes_from(left, row));
    let received = Received::own(layout, row, left);
    let listed = agree_list(&received, &received.judge_by_supersequences(), 4096);
    assert!(matches!(listed, Ok(1..)), "{received}: {listed:?}");
    listed.unwrap_or(0)
}

// "Dropping a candidate because the mended bit landed in another chunk of the same run. In a chunk-string a run may
// cross into the next block's chunk. The mended string is compared with the pieces, not the place."

/// The first block loses a bit in each of its two chunks. The second chunk-string is 100 000 without one 0 of the
/// first block's chunk: a mender that puts the bit at the end of the run puts it into the second block's chunk.
#[test]
fn a_mended_bit_that_lands_in_the_next_blocks_chunk() {
    let row = bits("000 100  100 000");
    for r in [0, 1, 2, 4] {
        assert_eq!(lists_the_row(&Layout::new(2, 2, 3, r), &row, &without(&row, &[2, 5])), 1);
    }
}

/// The second block loses a bit in each of its chunks. The first chunk-string is 000 000 without one 0 of the second
/// block's chunk: a mender that puts the bit at the start of the run puts it into the first block's chunk.
#[test]
fn a_mended_bit_that_lands_in_the_block_befores_chunk() {
    let row = bits("000 000  000 100");
    for r in [0, 1, 2, 4] {
        assert_eq!(lists_the_row(&Layout::new(2, 2, 3, r), &row, &without(&row, &[8, 11])), 1);
    }
}

/// All rows of two blocks of two chunks: either block loses, in each of its chunks, a bit of the run of the
/// chunk-string that crosses from one block into the other.
#[test]
fn runs_that_cross_from_block_to_block() {
    let mut cases = 0;
    for r in [0, 2] {
        let layout = Layout::new(2, 2, 3, r);
        for row in (0..1 << 12).map(|value| digits(value, 12)) {
            // The last bit of the first block's chunk j, and the first bit of the second block's.
            let ends = [(2, 6), (5, 9)];
            if ends.iter().all(|(last, first)| row[*last] == row[*first]) {
                lists_the_row(&layout, &row, &without(&row, &ends.map(|(last, _)| last)));
                lists_the_row(&layout, &row, &without(&row, &ends.map(|(_, first)| first)));
                cases += 2;
            }
        }
    }
    assert_eq!(cases, 4 * 1024);
}

// "Giving up when more chunks are erased than there are checks. Every fill that meets all sums and checks is listed."

/// Two blocks lose a bit in each of their two chunks: no block and no chunk-string has a single loss to mend, and four
/// chunks are erased, beside up to three checks.
#[test]
fn more_erased_chunks_than_checks() {
    let row = bits("011 010  110 001");
    let left = without(&row, &[0, 4, 8, 11]);
    let counts = [0, 1, 2, 3, 4].map(|r| lists_the_row(&Layout::new(2, 2, 3, r), &row, &left));
    assert!(counts[0] > 1, "several fills meet all sums");
    assert_eq!(counts[4], 1);
}

/// One chunk loses two bits or more, or all, and there is no check.
#[test]
fn an_erased_chunk_and_no_check() {
    for nc in SHORTEST_CHUNK..=LONGEST_CHUNK {
        for value in 0..1 << nc {
            let row = digits(value, nc);
            for k in 2..=nc {
                lists_the_row(&Layout::new(1, 1, nc, 0), &row, &row[k..]);
            }
        }
    }
}

/// All rows of two blocks of two chunks, of which each chunk loses its first bit, beside one check.
#[test]
fn every_fill_beside_one_check() {
    let layout = Layout::new(2, 2, 3, 1);
    for row in (0..1 << 12).map(|value| digits(value, 12)) {
        lists_the_row(&layout, &row, &without(&row, &[0, 3, 6, 9]));
    }
}

// "Reading past the received row's end for the last block."

/// The last bit of the row is lost, and it is what a spare bit behind the received bits, or a bit of whatever lies
/// behind the row's bytes, may be: with that bit the last block has its sum, and no loss would be looked for in it.
#[test]
fn the_last_bit_is_lost() {
    for (l1, l2, nc) in [(2, 1, 8), (1, 1, 8), (3, 1, 3), (2, 2, 3), (2, 2, 4), (1, 3, 3), (4, 1, 4)] {
        let layout = Layout::new(l1, l2, nc, 0);
        let n = layout.row_bits();
        for last in 0..1 << nc {
            for first in [0, 0x5A5A, 0xFFFF] {
                let row = [digits(first, n - nc), digits(last, nc)].concat();
                assert_eq!(lists_the_row(&layout, &row, &row[..n - 1]), 1);
            }
        }
    }
}

/// The last bits of the row are lost, up to the most: the last block, or several of the last ones, have fewer bits left
/// than they need, or none; where a whole number of bytes is received, the next byte is not the row's.
#[test]
fn the_last_bits_are_lost() {
    for (l1, l2, nc) in [(2, 1, 8), (1, 2, 6), (3, 1, 5), (2, 2, 3), (2, 2, 4), (5, 1, 3)] {
        for r in [0, 2] {
            let layout = Layout::new(l1, l2, nc, r);
            let n = layout.row_bits();
            for value in (0..64).map(|step| step * 0x9E37 + step / 7) {
                let row = digits(value, n);
                for k in 1..=n.min(MOST_LOSSES) {
                    lists_the_row(&layout, &row, &row[..n - k]);
                }
            }
        }
    }
}

/// The last block loses a bit in its last chunk and one in an earlier chunk, so that the last chunk is read where
/// less than a chunk is left.
#[test]
fn the_last_chunk_is_short() {
    for r in [0, 1] {
        let layout = Layout::new(2, 2, 3, r);
        for row in (0..1 << 12).map(|value| digits(value, 12)) {
            lists_the_row(&layout, &row, &without(&row, &[6, 11]));
        }
    }
}

// "Listing a row twice because two patterns lead to it."

/// Six zeros came of eight: either block may have lost both. The same row comes of it, and is listed once.
#[test]
fn one_row_from_two_patterns() {
    for (value, received) in [(0x00, "000000"), (0xFF, "111111")] {
        let row = digits(value, 8);
        let count = lists_the_row(&Layout::new(2, 1, 4, 1), &row, &bits(received));
        assert_eq!(count, 1);
    }
}

/// Two chunks of one block: four zeros came of six, and either chunk may have lost both.
#[test]
fn one_row_from_two_tables() {
    for r in [0, 1] {
        assert_eq!(lists_the_row(&Layout::new(1, 2, 3, r), &[false; 6], &[false; 4]), 1);
    }
}

/// Rows of one run, or of two, across all blocks and chunks: each bit lost may be of any of them.
#[test]
fn runs_through_all_blocks() {
    for (l1, l2, nc) in [(2, 1, 4), (4, 1, 3), (2, 2, 3), (1, 4, 3), (3, 1, 4)] {
        for r in [0, 1] {
            let layout = Layout::new(l1, l2, nc, r);
            let n = layout.row_bits();
            for edge in 0..=n {
                for first in [false, true] {
                    let row: Vec<bool> = (0..n).map(|place| first ^ (place >= edge)).collect();
                    for k in 0..=n.min(MOST_LOSSES) {
                        let places: Vec<usize> = (0..k).map(|lost| lost * n / k).collect();
                        lists_the_row(&layout, &row, &without(&row, &places));
                    }
                }
            }
        }
    }
}
