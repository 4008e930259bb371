//! Mending, compared with the reference.

use reference::bits::{bytes_for, digits, pack};
use reference::limits::LONGEST_ROW;
use reference::mend::by_trying_all;
use reference::random::Random;
use tester::damage::misfits;
use tester::{agree_in_rooms, agree_mend, agree_on_the_least, Mend};

/// All bits and all sums up to a length of 12, beside the strings that trying all of them gives: there is
/// exactly one each time.
#[test]
fn every_small_string_and_sum() {
    for w in 1..=12 {
        for (short, by_sum) in by_trying_all(w).iter().enumerate() {
            for (sum, strings) in by_sum.iter().enumerate() {
                assert_eq!(strings.len(), 1);
                let mended = agree_mend(w, sum, &pack(&digits(short, w - 1)), bytes_for(w));
                assert_eq!(mended, Ok(pack(&digits(strings[0], w))));
            }
        }
    }
}

/// Every length, with bits of all kinds and the least, the greatest and any sums.
#[test]
fn every_length() {
    let mut random = Random::new(21);
    for w in 1..=LONGEST_ROW {
        for sum in [0, w, random.below(w + 1), random.below(w + 1)] {
            let bits = pack(&random.bits(w - 1));
            assert!(agree_mend(w, sum, &bits, bytes_for(w)).is_ok());
        }
    }
}

/// Blank and full strings, with every sum.
#[test]
fn all_bits_alike() {
    for w in [1, 2, 7, 8, 9, 63, 64, 65, 120, 136, LONGEST_ROW] {
        for bit in [false, true] {
            let bits = pack(&vec![bit; w - 1]);
            for sum in 0..=w {
                assert!(agree_mend(w, sum, &bits, bytes_for(w)).is_ok());
            }
        }
    }
}

/// One string of the greatest length and each sum, so that the lost bit is found at each run.
#[test]
fn every_sum_of_the_longest() {
    let bits = pack(&Random::new(22).bits(LONGEST_ROW - 1));
    for sum in 0..=LONGEST_ROW {
        assert!(agree_mend(LONGEST_ROW, sum, &bits, bytes_for(LONGEST_ROW)).is_ok());
    }
}

/// Targets that are empty, one byte too short, exact and longer.
#[test]
fn targets() {
    let mut random = Random::new(23);
    for w in 1..=LONGEST_ROW {
        let bits = pack(&random.bits(w - 1));
        let sum = random.below(w + 1);
        agree_in_rooms(&Mend { w, sum, bits: &bits }, bytes_for(w));
    }
}

/// Sums at and above their limit, with bits and targets that are fit and unfit: 5 comes before 8 and 10.
#[test]
fn sums_above_their_limit() {
    for w in 1..=LONGEST_ROW {
        let fit = vec![0; bytes_for(w - 1)];
        let unfit = vec![0xFF; bytes_for(w - 1) + 1];
        assert!(agree_mend(w, w, &fit, bytes_for(w)).is_ok());
        for sum in [w + 1, w + 256, w + (1 << 16), 1 << 32, 1 << 63, usize::MAX] {
            assert_eq!(agree_mend(w, sum, &fit, bytes_for(w)), Err(5));
            assert_eq!(agree_mend(w, sum, &unfit, 0), Err(5));
        }
    }
}

/// Bits of another byte count, and each spare bit in turn 1: 8 comes before 10.
#[test]
fn bits_that_are_not_packed_so() {
    let mut random = Random::new(24);
    for w in 1..=LONGEST_ROW {
        let right = bytes_for(w - 1);
        let counts = [0, right.saturating_sub(1), right + 1, right + 256];
        for count in counts.into_iter().filter(|count| *count != right) {
            for room in [0, bytes_for(w)] {
                assert_eq!(agree_mend(w, random.below(w + 1), &vec![0; count], room), Err(8));
            }
        }
        for place in w - 1..8 * right {
            let mut spoiled = pack(&random.bits(w - 1));
            spoiled[place / 8] |= 0x80 >> (place % 8);
            for room in [0, bytes_for(w)] {
                assert_eq!(agree_mend(w, random.below(w + 1), &spoiled, room), Err(8));
            }
        }
    }
}

/// The same with bits that are not all 0 in another byte count.
#[test]
fn bits_in_every_other_packing() {
    let mut random = Random::new(25);
    for w in 1..=LONGEST_ROW {
        for bits in misfits(&random.bits(w - 1)) {
            for room in [0, bytes_for(w)] {
                assert_eq!(agree_mend(w, random.below(w + 1), &bits, room), Err(8));
            }
        }
    }
}

/// Every set of faults: the least number is answered.
#[test]
fn the_least_number_of_every_set_of_faults() {
    let fit = (60, 7, vec![0x40; 8], 8);
    let spoil = |(w, sum, bits, room): &mut (usize, usize, Vec<u8>, usize), number, way| match number {
        3 => *w = [0, LONGEST_ROW + 1][way],
        5 => *sum = [*w + 1, usize::MAX][way],
        8 if way == 0 => bits.push(0),
        8 => bits[7] |= 1,
        _ => *room = [0, *room - 1][way],
    };
    agree_on_the_least(&[3, 5, 8, 10], &fit, spoil, |(w, sum, bits, room)| agree_mend(*w, *sum, bits, *room).err());
}

/// Lengths outside 1 to 2,040, some of which are inside if their high bits are lost, whatever else is given.
#[test]
fn lengths_outside_their_bounds() {
    let lengths =
        [0, LONGEST_ROW + 1, LONGEST_ROW + 2, 4096, (1 << 16) + 4, (1 << 32) + 4, 1 << 63, usize::MAX - 1, usize::MAX];
    let most = bytes_for(LONGEST_ROW);
    for w in lengths {
        for sum in [0, 2, w.wrapping_sub(1), w, w.wrapping_add(1), usize::MAX] {
            for bytes in [0, 1, most, most + 1] {
                for room in [0, 1, most, most + 1] {
                    assert_eq!(agree_mend(w, sum, &vec![0; bytes], room), Err(3));
                }
            }
        }
    }
}

/// A row's sum and the row without one of its bits give the row again.
#[test]
fn mends_what_one_deletion_left() {
    let mut random = Random::new(25);
    for _ in 0..2_000 {
        let w = 1 + random.below(LONGEST_ROW);
        let string = random.bits(w);
        let mut short = string.clone();
        short.remove(random.below(w));
        let mended = agree_mend(w, reference::sum::sum(&string), &pack(&short), bytes_for(w));
        assert_eq!(mended, Ok(pack(&string)));
    }
}
