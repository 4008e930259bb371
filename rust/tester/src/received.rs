//! What arrives at the plotter's end: a message, and a row that may be short.

use std::fmt;

use reference::bits::pack;
use reference::limits::MOST_LOSSES;
use reference::list::{by_supersequences, judge, judge_by, Judged};
use reference::message::{encode, fields};
use reference::random::Random;
use reference::samples::{lose, row, Kind, Losses};
use reference::Layout;

use crate::damage::any_fields;
use crate::hex;

/// Whose message it is.
#[derive(Clone, Copy, Debug, PartialEq, Eq)]
pub enum Message {
    /// The row's own.
    Own,
    /// That of the row with one bit or two changed.
    Near,
    /// Any numbers in range, of which no row need exist.
    Any,
}

impl Message {
    pub const ALL: [Message; 3] = [Message::Own, Message::Near, Message::Any];
}

/// A message and a received row, with the seed from which they were made.
#[derive(Clone, Debug)]
pub struct Received {
    pub seed: u64,
    pub message: Vec<u8>,
    pub row: Vec<u8>,
    pub m: usize,
}

/// All that a call is given but the list slice, so that it can be repeated.
impl fmt::Display for Received {
    fn fmt(&self, f: &mut fmt::Formatter<'_>) -> fmt::Result {
        let layout = self.message.get(5..9).unwrap_or_default();
        let (message, row) = (hex(&self.message), hex(&self.row));
        write!(f, "seed {}, layout {layout:?}, message {message}, row {row}, m {}", self.seed, self.m)
    }
}

impl Received {
    /// From a message's numbers, each of which fits its slot, and the received bits.
    pub fn new(layout: &Layout, numbers: &[u16], bits: &[bool]) -> Received {
        Received { seed: 0, message: encode(layout, numbers), row: pack(bits), m: bits.len() }
    }

    /// What is left of a row, beside its own message.
    pub fn own(layout: &Layout, sent: &[bool], bits: &[bool]) -> Received {
        Received::new(layout, &fields(layout, sent), bits)
    }

    /// A row of this kind that lost `k` bits, at most n; all that is left to chance comes from the seed.
    pub fn sample(layout: &Layout, kind: Kind, losses: Losses, k: usize, message: Message, seed: u64) -> Received {
        let mut random = Random::new(seed);
        let sent = row(kind, layout.row_bits(), &mut random);
        let bits = lose(losses, layout, &sent, k, &mut random);
        let numbers = numbers(layout, &sent, message, &mut random);
        Received { seed, ..Received::new(layout, &numbers, &bits) }
    }

    /// A sample of any kind.
    pub fn any(layout: &Layout, seed: u64) -> Received {
        let mut random = Random::new(!seed);
        let k = random.below(layout.row_bits().min(MOST_LOSSES) + 1);
        let kind = Kind::ALL[random.below(Kind::ALL.len())];
        let losses = Losses::ALL[random.below(Losses::ALL.len())];
        let message = Message::ALL[random.below(Message::ALL.len())];
        Received::sample(layout, kind, losses, k, message, seed)
    }

    /// By trying every row; where nothing refuses, the layout must be small.
    pub fn judge(&self) -> Judged {
        judge(&self.message, &self.row, self.m)
    }

    /// By the rows from which the received bits come.
    pub fn judge_by_supersequences(&self) -> Judged {
        judge_by(by_supersequences, &self.message, &self.row, self.m)
    }
}

fn numbers(layout: &Layout, sent: &[bool], message: Message, random: &mut Random) -> Vec<u16> {
    let mut other = sent.to_vec();
    match message {
        Message::Own => {}
        Message::Near => {
            for _ in 0..=random.below(2) {
                let place = random.below(other.len());
                other[place] = !other[place];
            }
        }
        Message::Any => return any_fields(layout, random),
    }
    fields(layout, &other)
}
