//! Layouts: how a row is cut.

use crate::bits::{bytes_for, width};
use crate::limits::{LONGEST_CHUNK, MOST_CHECKS, SHORTEST_CHUNK};
use crate::random::Random;

/// Bytes of the mark, the version and the layout in front of a message's fields.
pub const HEAD: usize = 9;

#[derive(Clone, Copy, Debug, PartialEq, Eq)]
pub struct Layout {
    pub l1: usize,
    pub l2: usize,
    pub nc: usize,
    pub r: usize,
}

impl Layout {
    pub fn new(l1: usize, l2: usize, nc: usize, r: usize) -> Layout {
        Layout { l1, l2, nc, r }
    }

    /// "l1 and l2 at least 1; nc from 3 to 8; l1 × l2 at most 2^nc − 1; r from 0 to 16."
    #[inline]
    pub fn is_legal(&self) -> bool {
        self.l1 >= 1
            && self.l2 >= 1
            && (SHORTEST_CHUNK..=LONGEST_CHUNK).contains(&self.nc)
            && matches!(self.l1.checked_mul(self.l2), Some(chunks) if chunks < 1 << self.nc)
            && self.r <= MOST_CHECKS
    }

    /// Every legal layout with no checks; r may be put to anything up to the most.
    pub fn every_legal() -> Vec<Layout> {
        let mut layouts = Vec::new();
        for nc in SHORTEST_CHUNK..=LONGEST_CHUNK {
            let most = (1 << nc) - 1;
            for l1 in 1..=most {
                layouts.extend((1..=most / l1).map(|l2| Layout::new(l1, l2, nc, 0)));
            }
        }
        layouts
    }

    /// The same, each with some number of checks.
    pub fn every_legal_with_checks(random: &mut Random) -> Vec<Layout> {
        Layout::every_legal().into_iter().map(|base| Layout { r: random.below(MOST_CHECKS + 1), ..base }).collect()
    }
}

/// The measures of a legal layout, in which no product can wrap.
impl Layout {
    pub fn chunks(&self) -> usize {
        self.l1 * self.l2
    }

    /// n, the bits of a row.
    pub fn row_bits(&self) -> usize {
        self.chunks() * self.nc
    }

    /// nb, the bits of a block.
    pub fn block_bits(&self) -> usize {
        self.l2 * self.nc
    }

    /// The bits of a chunk-string.
    pub fn string_bits(&self) -> usize {
        self.nc * self.l1
    }

    /// The numbers in a message: block sums, chunk-string sums, checks.
    pub fn fields(&self) -> usize {
        self.l1 + self.l2 + self.r
    }

    /// The bits that those numbers take.
    pub fn field_bits(&self) -> usize {
        self.l1 * width(self.block_bits()) + self.l2 * width(self.string_bits()) + self.r * self.nc
    }

    pub fn message_bytes(&self) -> usize {
        HEAD + bytes_for(self.field_bits())
    }
}

#[cfg(test)]
mod tests {
    use super::*;
    use crate::limits::{LONGEST_MESSAGE, LONGEST_ROW, MOST_CHUNKS};

    #[test]
    fn the_bound_of_chunks() {
        assert!(Layout::new(15, 1, 4, 1).is_legal());
        assert!(!Layout::new(16, 1, 4, 1).is_legal());
        assert!(!Layout::new(0, 1, 4, 1).is_legal());
        assert!(!Layout::new(1, 1, 2, 0).is_legal());
        assert!(!Layout::new(1, 1, 9, 0).is_legal());
        assert!(!Layout::new(1, 1, 8, 17).is_legal());
        assert!(!Layout::new(1 << 32, 1 << 32, 8, 0).is_legal());
        assert!(!Layout::new(usize::MAX, usize::MAX, 3, 0).is_legal());
    }

    /// The largest that the document names follow from what is legal.
    #[test]
    fn the_largest_measures() {
        let layouts = Layout::every_legal();
        assert!(layouts.iter().all(Layout::is_legal));
        let with_checks = |l: &Layout| Layout { r: MOST_CHECKS, ..*l };
        assert_eq!(layouts.iter().map(Layout::chunks).max(), Some(MOST_CHUNKS));
        assert_eq!(layouts.iter().map(Layout::row_bits).max(), Some(LONGEST_ROW));
        assert_eq!(layouts.iter().map(|l| with_checks(l).message_bytes()).max(), Some(LONGEST_MESSAGE));
        assert_eq!(layouts.iter().map(|l| with_checks(l).fields()).max(), Some(272));
    }
}
