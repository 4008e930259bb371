//! Mending: "the string of length w with that sum from which those bits come by one deletion (exactly one
//! exists)".

use crate::bits::{bytes_for, digits, is_packed, number, pack, unpack};
use crate::limits::LONGEST_ROW;
use crate::refusal;
use crate::sum::{sum, total};

/// Whether mending refuses: "3, 5, 8, 10".
#[inline]
pub fn admit_bits(w: usize, sum: usize, bits: &[u8], room: usize) -> Result<(), u32> {
    if !(1..=LONGEST_ROW).contains(&w) {
        return Err(refusal::LAYOUT);
    }
    if sum > w {
        return Err(refusal::SUM);
    }
    if !is_packed(bits, w - 1) {
        return Err(refusal::PACKING);
    }
    if room < bytes_for(w) {
        return Err(refusal::SHORT_TARGET);
    }
    Ok(())
}

/// What mending puts into a target of `room` bytes, or the number of the refusal.
pub fn mend(w: usize, sum: usize, bits: &[u8], room: usize) -> Result<Vec<u8>, u32> {
    admit_bits(w, sum, bits, room)?;
    Ok(pack(&insert(sum, &unpack(bits, w - 1))))
}

/// Tries a bit of either kind at every place, until the sum is the wanted one, which is at most w. A bit put
/// in at a place adds its own position if it is 1, and moves each one behind it up by one position.
pub fn insert(wanted: usize, bits: &[bool]) -> Vec<bool> {
    let w = bits.len() + 1;
    let total = total(bits);
    let mut ones_behind = bits.iter().filter(|bit| **bit).count();
    for place in 0..w {
        for (bit, own_position) in [(false, 0), (true, place + 1)] {
            if (total + ones_behind + own_position) % (w + 1) == wanted {
                let mut mended = bits.to_vec();
                mended.insert(place, bit);
                return mended;
            }
        }
        ones_behind -= usize::from(bits.get(place) == Some(&true));
    }
    unreachable!("every sum up to w is met")
}

/// The definition taken at its word, for a small w: all strings of w bits are tried. Row `bits` and column
/// `sum` hold every string with that sum from which those w − 1 bits come by one deletion, as numbers with
/// the first bit highest.
pub fn by_trying_all(w: usize) -> Vec<Vec<Vec<usize>>> {
    let mut found = vec![vec![Vec::new(); w + 1]; 1 << (w - 1)];
    for string in 0..1 << w {
        let bits = digits(string, w);
        for place in 0..w {
            let mut short = bits.clone();
            short.remove(place);
            let strings: &mut Vec<usize> = &mut found[number(&short)][sum(&bits)];
            if strings.last() != Some(&string) {
                strings.push(string);
            }
        }
    }
    found
}

#[cfg(test)]
mod tests {
    use super::*;

    #[test]
    fn case_9() {
        assert_eq!(mend(4, 2, &[0b0100_0000], 1), Ok(vec![0b0100_0000]));
        assert_eq!(mend(4, 2, &[0b1110_0000], 1), Ok(vec![0b1101_0000]));
    }

    #[test]
    fn case_10() {
        assert_eq!(mend(1, 1, &[], 1), Ok(vec![0b1000_0000]));
    }

    #[test]
    fn agrees_with_trying_all_strings() {
        for w in 1..=10 {
            for (short, by_sum) in by_trying_all(w).iter().enumerate() {
                let bits = digits(short, w - 1);
                for (sum, strings) in by_sum.iter().enumerate() {
                    assert_eq!(strings.len(), 1, "exactly one exists");
                    assert_eq!(number(&insert(sum, &bits)), strings[0], "w = {w}, sum = {sum}, bits = {bits:?}");
                }
            }
        }
    }

    #[test]
    fn refusals_in_order() {
        assert_eq!(mend(0, 9, &[1], 0), Err(3));
        assert_eq!(mend(2041, 9, &[1], 0), Err(3));
        assert_eq!(mend(4, 5, &[1], 0), Err(5));
        assert_eq!(mend(4, 4, &[1], 0), Err(8));
        assert_eq!(mend(4, 4, &[0x20], 0), Err(10));
    }
}
