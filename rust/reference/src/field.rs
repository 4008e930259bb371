//! The fields of 2^nc elements and the Reed-Solomon checks. An element is a polynomial over two elements,
//! written as a binary number; adding is exclusive or.

use crate::limits::SHORTEST_CHUNK;

/// "The field polynomials, as binary numbers written in decimal .. for nc = 3 to 8."
const POLYNOMIALS: [u32; 6] = [11, 19, 37, 67, 137, 285];

pub fn polynomial(nc: usize) -> u32 {
    POLYNOMIALS[nc - SHORTEST_CHUNK]
}

/// The product of two elements: the polynomials are multiplied, and the remainder by the field's own is left.
pub fn times(nc: usize, a: u32, b: u32) -> u32 {
    let mut product = 0;
    for digit in 0..nc {
        if b >> digit & 1 == 1 {
            product ^= a << digit;
        }
    }
    for digit in (nc..2 * nc - 1).rev() {
        if product >> digit & 1 == 1 {
            product ^= polynomial(nc) << (digit - nc);
        }
    }
    product
}

/// "Check i is the field sum over chunks c (from 0, in row order) of 2^(i × c) times chunk c."
pub fn check(nc: usize, i: usize, chunks: &[u32]) -> u32 {
    let step = (0..i).fold(1, |power, _| times(nc, power, 2));
    let mut power = 1;
    let mut total = 0;
    for chunk in chunks {
        total ^= times(nc, power, *chunk);
        power = times(nc, power, step);
    }
    total
}

/// The powers of 2 of a field, and the exponent of each element but 0, for those who look products up.
pub struct Logs {
    pub power: [u8; 256],
    pub exponent: [u8; 256],
}

impl Logs {
    /// The field for chunks of so many bits.
    pub fn of(nc: usize) -> &'static Logs {
        &LOGS[nc - SHORTEST_CHUNK]
    }

    pub const fn new(nc: usize) -> Logs {
        let mut logs = Logs { power: [0; 256], exponent: [0; 256] };
        let mut element = 1;
        let mut exponent = 0;
        while exponent < (1 << nc) - 1 {
            logs.power[exponent] = element as u8;
            logs.exponent[element] = exponent as u8;
            element *= 2;
            if element >> nc == 1 {
                element ^= POLYNOMIALS[nc - SHORTEST_CHUNK] as usize;
            }
            exponent += 1;
        }
        logs
    }
}

static LOGS: [Logs; 6] = [Logs::new(3), Logs::new(4), Logs::new(5), Logs::new(6), Logs::new(7), Logs::new(8)];

#[cfg(test)]
mod tests {
    use super::*;
    use crate::limits::LONGEST_CHUNK;

    #[test]
    fn two_generates_each_field() {
        for nc in SHORTEST_CHUNK..=LONGEST_CHUNK {
            let mut seen = vec![false; 1 << nc];
            let mut power = 1;
            for exponent in 0..(1 << nc) - 1 {
                assert!(power != 0 && !seen[power as usize]);
                seen[power as usize] = true;
                assert_eq!(u32::from(Logs::of(nc).power[exponent]), power);
                assert_eq!(usize::from(Logs::of(nc).exponent[power as usize]), exponent);
                power = times(nc, power, 2);
            }
            assert_eq!(power, 1);
        }
    }

    #[test]
    fn check_0_is_the_exclusive_or_of_the_chunks() {
        assert_eq!(check(4, 0, &[1, 2, 4, 15]), 1 ^ 2 ^ 4 ^ 15);
    }
}
