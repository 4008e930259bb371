//! What listing refuses, and which number comes first.

use reference::bits::{bytes_for, pack};
use reference::layout::HEAD;
use reference::limits::MOST_LOSSES;
use reference::message::{encode, fields, slots};
use reference::random::Random;
use reference::Layout;
use tester::damage::{self, flip, misfits, some_bytes, sums_above, LAYOUT};
use tester::{agree_list, agree_on_the_least, Received};

/// The message of a row of that layout, and twelve of its bits, of which one row alone can come.
fn fit() -> Received {
    let sent: Vec<bool> = (0..16).map(|place| place % 3 == 0).collect();
    Received::own(&LAYOUT, &sent, &sent[..12])
}

/// Makes the condition of a refusal true, in one of two ways. Greater numbers are spoilt first.
fn spoil(received: &mut Received, number: u32, way: usize) {
    match number {
        7 => received.m = [17, 3][way],
        8 if way == 0 => received.row.push(0),
        8 => received.row[1] |= 1,
        _ => damage::spoil(&mut received.message, number, way),
    }
}

/// Every set of faults from 1 to 8, each in both ways, with an empty slice and a long one: the least number is
/// answered.
#[test]
fn the_least_number_of_every_set_of_faults() {
    for set in 0..1_u32 << 8 {
        for ways in (0..1_u32 << 8).filter(|ways| ways & !set == 0) {
            let faults: Vec<u32> = (1..=8).filter(|number| set >> (number - 1) & 1 == 1).collect();
            let mut received = fit();
            for number in faults.iter().rev() {
                spoil(&mut received, *number, (ways >> (number - 1) & 1) as usize);
            }
            let judged = received.judge();
            for room in [0, 4096] {
                let answer = agree_list(&received, &judged, room);
                match faults.first() {
                    Some(number) => assert_eq!(answer, Err(*number), "{received}"),
                    None => assert_eq!(answer, if room == 0 { Err(9) } else { Ok(1) }),
                }
            }
        }
    }
}

/// The same with 9 as one more fault: the slice is empty, or a byte too short for the one row.
#[test]
fn the_least_number_with_a_short_slice_too() {
    let spoil = |(received, room): &mut (Received, usize), number, way| match number {
        9 => *room = way,
        _ => spoil(received, number, way),
    };
    let fit = (fit(), 4096);
    agree_on_the_least(&[1, 2, 3, 4, 5, 6, 7, 8, 9], &fit, spoil, |(received, room)| {
        agree_list(received, &received.judge(), *room).err()
    });
}

/// No message that is shorter than a head is one, and no other length but its own is right.
#[test]
fn every_length_of_the_message() {
    let whole = fit().message;
    for length in 0..=whole.len() + 3 {
        let mut received = fit();
        received.message.resize(length, 0);
        let due = match length {
            0..=8 => Err(1),
            _ if length == whole.len() => Ok(1),
            _ => Err(4),
        };
        assert_eq!(agree_list(&received, &received.judge(), 99), due);
    }
}

/// Each byte of the head takes every other value.
#[test]
fn every_head_byte() {
    for place in 0..HEAD {
        for change in 1..=0xFF {
            let mut received = fit();
            received.message[place] ^= change;
            let answer = agree_list(&received, &received.judge_by_supersequences(), 99);
            assert!(place >= 3 || answer == Err(1));
            assert!(!(3..5).contains(&place) || answer == Err(2));
        }
    }
}

/// Every legal layout: more bits than a row has, more than twelve missing, and numbers that are right only if their
/// high bits are lost. The row's bytes would be wrong as well: 7 comes before 8.
#[test]
fn bit_counts_outside_their_bounds() {
    let mut random = Random::new(71);
    for layout in Layout::every_legal_with_checks(&mut random) {
        let n = layout.row_bits();
        let sent = random.bits(n);
        let mut counts = vec![n + 1, n + 2, n + 256, n + (1 << 16), n + (1 << 32), n | 1 << 63, usize::MAX];
        counts.extend([usize::MAX - MOST_LOSSES, n.wrapping_sub(MOST_LOSSES + 1)]);
        counts.extend((0..n.saturating_sub(MOST_LOSSES)).rev().take(3));
        counts.extend((0..n.saturating_sub(MOST_LOSSES)).take(1));
        for m in counts {
            let received = Received { m, ..Received::own(&layout, &sent, &sent) };
            assert_eq!(agree_list(&received, &received.judge(), 0), Err(7));
        }
    }
}

/// Every legal layout: a row of another byte count than its bits need, and each spare bit in turn 1.
#[test]
fn rows_that_are_not_packed_so() {
    let mut random = Random::new(72);
    for layout in Layout::every_legal_with_checks(&mut random) {
        let n = layout.row_bits();
        let sent = random.bits(n);
        let m = n - random.below(n.min(MOST_LOSSES) + 1);
        let right = bytes_for(m);
        for count in [0, right.saturating_sub(1), right + 1, right + 256, bytes_for(n) + 1] {
            if count != right {
                let row = vec![0; count];
                let received = Received { row, m, ..Received::own(&layout, &sent, &sent) };
                assert_eq!(agree_list(&received, &received.judge(), 0), Err(8));
            }
        }
        for place in m..8 * right {
            let mut received = Received::own(&layout, &sent, &sent[..m]);
            received.row[place / 8] |= 0x80 >> (place % 8);
            assert_eq!(agree_list(&received, &received.judge(), 4096), Err(8));
        }
    }
}

/// The same with rows that are not all 0 in another byte count, with an empty slice and a long one.
#[test]
fn rows_in_every_other_packing() {
    let mut random = Random::new(76);
    for layout in Layout::every_legal_with_checks(&mut random) {
        let n = layout.row_bits();
        let sent = random.bits(n);
        let m = n - random.below(n.min(MOST_LOSSES) + 1);
        for row in misfits(&sent[..m]) {
            let received = Received { row, m, ..Received::own(&layout, &sent, &sent) };
            for room in [0, 4096] {
                assert_eq!(agree_list(&received, &received.judge(), room), Err(8));
            }
        }
    }
}

/// Each sum of every legal layout in turn is one above its limit, if its bits can spell that.
#[test]
fn sums_above_their_limit() {
    let mut random = Random::new(73);
    let mut refused = 0;
    for layout in Layout::every_legal_with_checks(&mut random).into_iter().step_by(3) {
        let sent = random.bits(layout.row_bits());
        let numbers = fields(&layout, &sent);
        for (place, slot) in slots(&layout).into_iter().enumerate().take(layout.l1 + layout.l2) {
            if slot.most + 1 < 1 << slot.width {
                let mut damaged = numbers.clone();
                damaged[place] = slot.most as u16 + 1;
                let message = encode(&layout, &damaged);
                let received = Received { seed: 0, message, row: pack(&sent), m: sent.len() };
                assert_eq!(agree_list(&received, &received.judge(), 0), Err(5));
                refused += 1;
            }
        }
    }
    assert!(refused > 10_000);
}

/// The same with sums that are all ones, too.
#[test]
fn sums_above_their_limit_in_either_way() {
    let mut random = Random::new(77);
    let mut refused = 0;
    for layout in Layout::every_legal_with_checks(&mut random).into_iter().step_by(3) {
        let sent = random.bits(layout.row_bits());
        for message in sums_above(&layout, &fields(&layout, &sent)) {
            let received = Received { seed: 0, message, row: pack(&sent), m: sent.len() };
            assert_eq!(agree_list(&received, &received.judge(), 0), Err(5));
            refused += 1;
        }
    }
    assert!(refused > 10_000);
}

/// Messages with a few bits changed anywhere, beside rows of any bytes and any count.
#[test]
fn any_damage() {
    for seed in 6_000_000..6_004_000 {
        let mut random = Random::new(seed);
        let mut received = Received::any(&Layout { r: random.below(3), ..LAYOUT }, seed);
        for _ in 0..random.below(3) {
            let place = random.below(8 * received.message.len());
            flip(&mut received.message, place);
        }
        if random.below(3) == 0 {
            received.m = random.below(24);
        }
        if random.below(4) == 0 {
            received.row = some_bytes(4, false, &mut random);
        }
        let _ = agree_list(&received, &received.judge_by_supersequences(), random.below(20));
    }
}

/// Any bytes at all in the place of the message.
#[test]
fn any_bytes() {
    for seed in 7_000_000..7_004_000 {
        let mut random = Random::new(seed);
        let message = some_bytes(40, seed % 2 == 0, &mut random);
        let received = Received { seed, message, ..fit() };
        assert!(agree_list(&received, &received.judge_by_supersequences(), 50).is_err());
    }
}
