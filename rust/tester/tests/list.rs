//! Listing, compared with the reference, which tries every row of a small layout.

use reference::bits::{bytes_for, digits};
use reference::limits::{MOST_CHECKS, MOST_LOSSES};
use reference::message::slots;
use reference::random::Random;
use reference::samples::{Kind, Losses};
use reference::Layout;
use tester::{agree_list, Message, Received};

/// Every legal layout whose rows have so many bits, without checks.
fn layouts(least: usize, most: usize) -> Vec<Layout> {
    Layout::every_legal().into_iter().filter(|layout| (least..=most).contains(&layout.row_bits())).collect()
}

/// A slice that is long enough for every list here, or, in one case of four, of any length up to four rows.
fn some_room(layout: &Layout, random: &mut Random) -> usize {
    match random.below(4) {
        0 => random.below(4 * bytes_for(layout.row_bits()) + 1),
        _ => 4096,
    }
}

/// All numbers that fit the slots of a layout's message.
fn every_message(layout: &Layout) -> Vec<Vec<u16>> {
    slots(layout).iter().fold(vec![Vec::new()], |messages, slot| {
        let more = |head: Vec<u16>| (0..=slot.most).map(move |value| [&head[..], &[value as u16]].concat());
        messages.into_iter().flat_map(more).collect()
    })
}

/// Every message and every received row of the smallest layouts.
#[test]
fn everything_of_the_smallest_layouts() {
    let with_checks = [(1, 1, 3, 1), (1, 1, 4, 1), (1, 1, 3, 2)].map(|(l1, l2, nc, r)| Layout::new(l1, l2, nc, r));
    let mut cases = 0;
    for layout in layouts(3, 6).into_iter().chain(with_checks) {
        let n = layout.row_bits();
        for message in every_message(&layout) {
            for m in 0..=n {
                for number in 0..1 << m {
                    let received = Received::new(&layout, &message, &digits(number, m));
                    let room = if number % 5 == 0 { m } else { 99 };
                    let _ = agree_list(&received, &received.judge(), room);
                    cases += 1;
                }
            }
        }
    }
    assert!(cases > 60_000);
}

/// Every layout of up to 12 bits, with rows and losses of every kind and every number of losses.
#[test]
fn every_kind_of_row_and_loss() {
    let mut random = Random::new(61);
    let mut seed = 1_000_000;
    for layout in layouts(3, 12) {
        for kind in Kind::ALL {
            for losses in Losses::ALL {
                for k in 0..=layout.row_bits() {
                    let r = [0, 1, 2, 3, MOST_CHECKS][random.below(5)];
                    let message = Message::ALL[random.below(3)];
                    let received = Received::sample(&Layout { r, ..layout }, kind, losses, k, message, seed);
                    let _ = agree_list(&received, &received.judge(), some_room(&layout, &mut random));
                    seed += 1;
                }
            }
        }
    }
    assert!(seed > 1_010_000);
}

/// Layouts of 13 to 20 bits, with samples of any kind, beside the lister that tries every row.
#[test]
fn layouts_of_up_to_20_bits() {
    let mut random = Random::new(62);
    for layout in layouts(13, 20) {
        let cases = if layout.row_bits() > 16 { 5 } else { 40 };
        for seed in 2_000_000..2_000_000 + cases {
            let layout = Layout { r: random.below(5), ..layout };
            let received = Received::any(&layout, seed);
            let _ = agree_list(&received, &received.judge(), some_room(&layout, &mut random));
        }
    }
}

/// The same layouts, with many more samples, beside the lister that goes through the rows from which the received
/// bits come.
#[test]
fn layouts_of_up_to_20_bits_again() {
    let mut random = Random::new(63);
    for layout in layouts(13, 20) {
        for seed in 3_000_000..3_000_030 {
            let layout = Layout { r: random.below(MOST_CHECKS + 1), ..layout };
            let received = Received::any(&layout, seed);
            let _ = agree_list(&received, &received.judge_by_supersequences(), some_room(&layout, &mut random));
        }
    }
}

/// Layouts of 21 to 64 bits, with few losses.
#[test]
fn few_losses_of_longer_rows() {
    let mut random = Random::new(64);
    for (index, layout) in layouts(21, 64).into_iter().enumerate() {
        for seed in 4_000_000..4_000_012 {
            let layout = Layout { r: [0, 1, 2, 4, MOST_CHECKS][random.below(5)], ..layout };
            let kind = Kind::ALL[(index + seed as usize) % Kind::ALL.len()];
            let losses = Losses::ALL[random.below(5)];
            let k = random.below(if layout.block_bits() <= 16 { 5 } else { 4 });
            let received = Received::sample(&layout, kind, losses, k, Message::ALL[random.below(3)], seed);
            let _ = agree_list(&received, &received.judge_by_supersequences(), some_room(&layout, &mut random));
        }
    }
}

/// All losses at once, where a row has no more bits than can be lost: no bits arrive, and every bit is to be found.
#[test]
fn no_bits_received() {
    for layout in layouts(3, MOST_LOSSES) {
        for seed in 5_000_000..5_000_020 {
            let layout = Layout { r: seed as usize % 3, ..layout };
            let message = Message::ALL[seed as usize % 3];
            let received = Received::sample(&layout, Kind::Random, Losses::Uniform, layout.row_bits(), message, seed);
            assert_eq!((received.m, received.row.len()), (0, 0));
            let _ = agree_list(&received, &received.judge(), 4096);
        }
    }
}
