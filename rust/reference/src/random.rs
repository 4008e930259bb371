//! A small generator of numbers that are the same in each run (splitmix64), so that a failed test can be
//! repeated.

pub struct Random {
    state: u64,
}

impl Random {
    pub fn new(seed: u64) -> Random {
        Random { state: seed }
    }

    pub fn number(&mut self) -> u64 {
        self.state = self.state.wrapping_add(0x9E37_79B9_7F4A_7C15);
        let mixed = (self.state ^ (self.state >> 30)).wrapping_mul(0xBF58_476D_1CE4_E5B9);
        let mixed = (mixed ^ (mixed >> 27)).wrapping_mul(0x94D0_49BB_1331_11EB);
        mixed ^ (mixed >> 31)
    }

    /// A number below `bound`, which is above 0.
    pub fn below(&mut self, bound: usize) -> usize {
        (self.number() % bound as u64) as usize
    }

    /// `count` bits of one of the kinds that rows have: any bits, few ones, few zeros, or runs.
    pub fn bits(&mut self, count: usize) -> Vec<bool> {
        let kind = self.below(4);
        let mut last = false;
        (0..count)
            .map(|_| {
                last = match kind {
                    0 => self.below(2) == 0,
                    1 => self.below(10) == 0,
                    2 => self.below(10) != 0,
                    _ => last ^ (self.below(6) == 0),
                };
                last
            })
            .collect()
    }
}
