//! How much stack listing takes. The figures stand in the header alone, as a table; the test holds the library to it, and the
//! program `stack` measures what to write there.

use std::thread;

use reference::bits::{bytes_for, pack};
use reference::limits::{LONGEST_CHUNK, LONGEST_LIST, MOST_CHECKS, MOST_CHUNKS, MOST_LOSSES};
use reference::random::Random;
use reference::samples::{lose, row, Kind, Losses};
use reference::Layout;

use crate::Received;

const HEADER: &str = include_str!("../../../include/dairyhour.h");

/// The line above the table.
const HEADING: &str = " *     l1 at most   stack";

/// Of each stack that the header names at least this part is left over: one of so many.
const MARGIN: usize = 16;

/// A line of the table: layouts with up to so many blocks take at most so many KB.
#[derive(Clone, Copy, Debug, PartialEq, Eq)]
pub struct Line {
    pub blocks: usize,
    pub kb: usize,
}

/// The lines of the table in the header.
pub fn table() -> Vec<Line> {
    let number = |words: &[&str], place: usize| words.get(place)?.parse().ok();
    let line = |text: &str| {
        let words: Vec<&str> = text.split_whitespace().collect();
        Some(Line { blocks: number(&words, 1)?, kb: number(&words, 2)? })
    };
    HEADER.lines().skip_while(|text| *text != HEADING).skip(1).map_while(line).collect()
}

impl Line {
    /// What a list may take, in bytes: what the header names without the margin.
    pub fn without_margin(self) -> usize {
        (self.kb - self.kb / MARGIN) * 1024
    }

    /// What to write in the header where so many KB are taken: with the margin and a little more, in steps of 16 KB.
    pub fn to_state(taken: usize) -> usize {
        let stated = taken * (MARGIN + 1) / (MARGIN - 1);
        (stated + 15) / 16 * 16
    }

    /// The deepest layouts with so many blocks or fewer, each with losses at the end of the row, so that all blocks and all chunks
    /// but the last are read, and the losses placed, at the bottom of the search, and with losses anywhere.
    pub fn cases(self) -> Vec<Case> {
        let most = MOST_CHUNKS / self.blocks;
        let shapes = [(self.blocks, most), (self.blocks, 1), (1, most)];
        let case = |(l1, l2)| [Losses::RowEnd, Losses::Uniform].map(|losses| Case { l1, l2, losses });
        shapes.into_iter().flat_map(case).collect()
    }
}

/// A list that is made: a random row of this layout, with the longest chunks and the most checks, that lost as many bits as it may.
#[derive(Clone, Copy, Debug, PartialEq, Eq)]
pub struct Case {
    pub l1: usize,
    pub l2: usize,
    pub losses: Losses,
}

impl Case {
    /// As words of a command line, and back.
    pub fn words(self) -> [String; 3] {
        [self.l1.to_string(), self.l2.to_string(), format!("{:?}", self.losses)]
    }

    pub fn parse(l1: &str, l2: &str, losses: &str) -> Option<Case> {
        let losses = Losses::ALL.into_iter().find(|known| format!("{known:?}") == losses)?;
        Some(Case { l1: l1.parse().ok()?, l2: l2.parse().ok()?, losses })
    }

    /// Is the row listed on a thread with a stack of so many bytes? A stack that is too small ends the process.
    pub fn is_listed_on(self, stack: usize) -> bool {
        let layout = Layout::new(self.l1, self.l2, LONGEST_CHUNK, MOST_CHECKS);
        let mut random = Random::new(101);
        let sent = row(Kind::Random, layout.row_bits(), &mut random);
        let lost = MOST_LOSSES.min(layout.row_bits());
        let bits = lose(self.losses, &layout, &sent, lost, &mut random);
        let Received { message, row, m, .. } = Received::own(&layout, &sent, &bits);
        let row_bytes = bytes_for(layout.row_bits());
        let listing = move || {
            let mut out = vec![0; LONGEST_LIST];
            let count = dairyhour::list(&message, &row, m, &mut out).unwrap_or(0);
            out.chunks(row_bytes).take(count).any(|found| found == pack(&sent))
        };
        thread::Builder::new().stack_size(stack).spawn(listing).map_or(false, |thread| thread.join().unwrap_or(false))
    }
}
