//! What came out of a row.

use std::fmt;

use dairyhour::{Refusal, MOST_LOSSES};

use crate::command::plural;
use crate::lister::{Outcome, Silence};

/// How many bits a received row lacks, or has too many.
#[derive(Clone, Copy, Debug, PartialEq, Eq)]
pub enum Loss {
    Lost(usize),
    TooMany(usize),
}

impl Loss {
    /// Of a row of so many bits of which so many arrived.
    pub fn new(sent: usize, arrived: usize) -> Loss {
        if arrived > sent {
            Loss::TooMany(arrived - sent)
        } else {
            Loss::Lost(sent - arrived)
        }
    }

    /// The bits that were lost; none of a row that has too many.
    pub fn lost(self) -> usize {
        match self {
            Loss::Lost(bits) => bits,
            Loss::TooMany(_) => 0,
        }
    }

    pub fn too_many(self) -> usize {
        match self {
            Loss::Lost(_) => 0,
            Loss::TooMany(bits) => bits,
        }
    }
}

impl fmt::Display for Loss {
    fn fmt(&self, f: &mut fmt::Formatter<'_>) -> fmt::Result {
        match self {
            Loss::Lost(bits) => write!(f, "{} lost", plural(*bits, "bit")),
            Loss::TooMany(bits) => write!(f, "{} too many", plural(*bits, "bit")),
        }
    }
}

/// A refusal of a row with such a loss, in words and with its number.
pub fn refusal(number: u32, loss: Loss) -> String {
    let words = match (Refusal::from_number(number), loss) {
        (Refusal::Losses, Loss::Lost(_)) => format!("more than {MOST_LOSSES} bits lost"),
        (Refusal::Losses, Loss::TooMany(_)) => String::from("more bits than were sent"),
        (Refusal::ListFull, _) => String::from("more rows than a list holds"),
        (refusal, _) => String::from(refusal.when()),
    };
    format!("refused: {words} ({number})")
}

#[derive(Clone, Copy, Debug, PartialEq, Eq)]
pub enum Verdict {
    /// So many rows can have been sent.
    Rows(usize),
    /// The library refused by this number a row with such a loss.
    Refused(u32, Loss),
    Silent(Silence),
}

impl Verdict {
    /// Of an outcome of whose listed rows so many can have been sent.
    pub fn new(outcome: &Outcome, loss: Loss, possible: usize) -> Verdict {
        match &outcome.answer {
            Ok(answer) if answer.refusal != 0 => Verdict::Refused(answer.refusal, loss),
            Ok(_) => Verdict::Rows(possible),
            Err(silence) => Verdict::Silent(*silence),
        }
    }

    /// For files and programs.
    pub fn code(self) -> String {
        match self {
            Verdict::Rows(count) => format!("count {count}"),
            Verdict::Refused(number, _) => format!("refused {number}"),
            Verdict::Silent(Silence::TooLong) => String::from("given up"),
            Verdict::Silent(Silence::Ended) => String::from("worker ended"),
            Verdict::Silent(Silence::NotDone) => String::from("not done"),
        }
    }

    /// For people.
    pub fn words(self) -> String {
        match self {
            Verdict::Refused(number, loss) => refusal(number, loss),
            _ => self.code(),
        }
    }
}

#[cfg(test)]
mod tests {
    use super::*;

    #[test]
    fn refusals_in_words() {
        let words = |number, arrived| Verdict::Refused(number, Loss::new(60, arrived)).words();
        assert_eq!(words(7, 47), "refused: more than 12 bits lost (7)");
        assert_eq!(words(7, 62), "refused: more bits than were sent (7)");
        assert_eq!(words(9, 50), "refused: more rows than a list holds (9)");
        assert_eq!(words(5, 50), "refused: a sum above the length of its string (5)");
        assert_eq!(Loss::new(60, 59).to_string(), "1 bit lost");
        assert_eq!(Loss::new(60, 62).to_string(), "2 bits too many");
    }
}
