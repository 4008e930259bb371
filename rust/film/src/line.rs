//! The simulated line: rows go in, and what it leaves of them comes out.

use container::{bytes_for, Row};
use reference::random::Random;

use crate::picture::bit;

/// How the line loses bits.
#[derive(Clone, Copy, Debug)]
pub enum Line {
    /// Each bit is lost with this chance.
    Rate(f64),
    /// Each row loses so many bits side by side, or all if it has fewer.
    Burst(usize),
}

impl Line {
    /// What is left of a row of `bits` bits. The same seed and row number always lose the same places.
    pub fn send(self, packed: &[u8], bits: usize, seed: u64, number: usize) -> Row {
        let mut random = Random::new(seed ^ (number as u64).wrapping_mul(0xD134_2543_DE82_EF95));
        // The first number of nearby seeds is left out, so that rows share nothing.
        random.number();
        let lost = self.lost(bits, &mut random);
        pack((0..bits).filter(|place| !lost[*place]).map(|place| bit(packed, place)))
    }

    fn lost(self, bits: usize, random: &mut Random) -> Vec<bool> {
        match self {
            Line::Rate(rate) => (0..bits).map(|_| fraction(random) < rate).collect(),
            Line::Burst(length) => {
                let length = length.min(bits);
                let start = random.below(bits - length + 1);
                (0..bits).map(|place| (start..start + length).contains(&place)).collect()
            }
        }
    }
}

/// A number from 0 to below 1.
fn fraction(random: &mut Random) -> f64 {
    (random.number() >> 11) as f64 / (1_u64 << 53) as f64
}

/// Packs bits, first bit highest.
fn pack(bits: impl Iterator<Item = bool>) -> Row {
    let mut packed = Vec::new();
    let mut count = 0;
    for bit in bits {
        if count % 8 == 0 {
            packed.push(0);
        }
        if bit {
            packed[count / 8] |= 0x80 >> (count % 8);
        }
        count += 1;
    }
    debug_assert_eq!(packed.len(), bytes_for(count));
    Row { bits: count as u16, packed }
}

#[cfg(test)]
mod tests {
    use super::*;

    #[test]
    fn bursts_and_rates() {
        let row = [0xFF; 8];
        for number in 0..50 {
            assert_eq!(Line::Burst(3).send(&row, 60, 1, number).bits, 57);
            assert_eq!(Line::Burst(99).send(&row, 60, 1, number).bits, 0);
            assert_eq!(Line::Rate(0.0).send(&row, 60, 1, number), Row { bits: 60, packed: pack_ones(60) });
            assert_eq!(Line::Rate(1.0).send(&row, 60, 1, number).bits, 0);
        }
        let left: usize = (0..1000).map(|number| Line::Rate(0.1).send(&row, 60, 1, number).bits as usize).sum();
        assert!((53_000..55_000).contains(&left), "{left}");
    }

    fn pack_ones(bits: usize) -> Vec<u8> {
        pack((0..bits).map(|_| true)).packed
    }

    #[test]
    fn the_seed_decides() {
        let row = [0x35; 8];
        let sent = |seed| (0..20).map(|number| Line::Rate(0.1).send(&row, 60, seed, number)).collect::<Vec<_>>();
        assert_eq!(sent(7), sent(7));
        assert_ne!(sent(7), sent(8));
    }
}
