//! Rows and losses of all kinds, for tests and timings.

use crate::layout::Layout;
use crate::random::Random;

/// What a row looks like.
#[derive(Clone, Copy, Debug, PartialEq, Eq)]
pub enum Kind {
    Random,
    Blank,
    Ones,
    /// Stripes that repeat after so many bits, from any phase.
    Stripes(usize),
    /// So many tracks of 5 to 30 bits on a blank row; on a short row, of up to its length.
    Tracks(usize),
    /// Runs of 5 to 200 bits, most of them short.
    Film,
}

impl Kind {
    pub const ALL: [Kind; 11] = [
        Kind::Random,
        Kind::Blank,
        Kind::Ones,
        Kind::Stripes(2),
        Kind::Stripes(3),
        Kind::Stripes(4),
        Kind::Stripes(7),
        Kind::Stripes(8),
        Kind::Tracks(1),
        Kind::Tracks(4),
        Kind::Film,
    ];
}

/// A row of `n` bits of this kind.
pub fn row(kind: Kind, n: usize, random: &mut Random) -> Vec<bool> {
    match kind {
        Kind::Random => (0..n).map(|_| random.below(2) == 1).collect(),
        Kind::Blank => vec![false; n],
        Kind::Ones => vec![true; n],
        Kind::Stripes(period) => stripes(period, n, random),
        Kind::Tracks(count) => tracks(count, n, random),
        Kind::Film => film(n, random),
    }
}

/// Half of an even period is ones, and any part of an odd one.
fn stripes(period: usize, n: usize, random: &mut Random) -> Vec<bool> {
    let phase = random.below(period);
    let ones = if period % 2 == 0 { period / 2 } else { 1 + random.below(period - 1) };
    (0..n).map(|place| (place + phase) % period < ones).collect()
}

fn tracks(count: usize, n: usize, random: &mut Random) -> Vec<bool> {
    let mut row = vec![false; n];
    for _ in 0..count {
        let width = if n < 60 { 1 + random.below(n) } else { 5 + random.below(26) };
        let start = random.below(n);
        row[start..n.min(start + width)].fill(true);
    }
    row
}

fn film(n: usize, random: &mut Random) -> Vec<bool> {
    let mut row = Vec::new();
    let mut bit = random.below(2) == 1;
    while row.len() < n {
        let width = if random.below(3) == 0 { 5 + random.below(196) } else { 5 + random.below(30) };
        row.resize(row.len() + width, bit);
        bit = !bit;
    }
    row.truncate(n);
    row
}

/// Where bits are lost.
#[derive(Clone, Copy, Debug, PartialEq, Eq)]
pub enum Losses {
    /// Anywhere.
    Uniform,
    /// Side by side.
    Burst,
    /// At the last bits of runs, and anywhere if there are not enough runs.
    RunEnds,
    /// In one block, and anywhere if it has not enough bits.
    Block,
    /// At the row's end.
    RowEnd,
}

impl Losses {
    pub const ALL: [Losses; 5] = [Losses::Uniform, Losses::Burst, Losses::RunEnds, Losses::Block, Losses::RowEnd];
}

/// What is left of a row of this layout when `k` of its bits are lost.
pub fn lose(losses: Losses, layout: &Layout, row: &[bool], k: usize, random: &mut Random) -> Vec<bool> {
    let n = row.len();
    let mut lost = vec![false; n];
    match losses {
        Losses::Uniform => {}
        Losses::Burst => {
            let start = random.below(n - k + 1);
            lost[start..start + k].fill(true);
        }
        Losses::RunEnds => {
            let ends: Vec<usize> = (0..n).filter(|place| row.get(place + 1) != Some(&row[*place])).collect();
            strike(&mut lost, &ends, k, random);
        }
        Losses::Block => {
            let first = random.below(layout.l1) * layout.block_bits();
            let places: Vec<usize> = (first..first + layout.block_bits()).collect();
            strike(&mut lost, &places, k, random);
        }
        Losses::RowEnd => lost[n - k..].fill(true),
    }
    let struck = lost.iter().filter(|lost| **lost).count();
    let rest: Vec<usize> = (0..n).filter(|place| !lost[*place]).collect();
    strike(&mut lost, &rest, k - struck, random);
    row.iter().zip(&lost).filter(|(_, lost)| !**lost).map(|(bit, _)| *bit).collect()
}

/// Marks `count` of these places, or all if there are fewer.
fn strike(lost: &mut [bool], places: &[usize], count: usize, random: &mut Random) {
    let mut left = places.to_vec();
    for _ in 0..count.min(places.len()) {
        let place = left.swap_remove(random.below(left.len()));
        lost[place] = true;
    }
}

#[cfg(test)]
mod tests {
    use super::*;
    use crate::limits::MOST_LOSSES;
    use crate::list::comes_from;

    #[test]
    fn rows_have_their_length_and_lose_k_bits() {
        let mut random = Random::new(51);
        for layout in Layout::every_legal().into_iter().step_by(7) {
            let n = layout.row_bits();
            for kind in Kind::ALL {
                let sent = row(kind, n, &mut random);
                assert_eq!(sent.len(), n);
                for losses in Losses::ALL {
                    let k = random.below(n.min(MOST_LOSSES) + 1);
                    let received = lose(losses, &layout, &sent, k, &mut random);
                    assert_eq!(received.len(), n - k);
                    assert!(comes_from(&received, &sent));
                }
            }
        }
    }
}
