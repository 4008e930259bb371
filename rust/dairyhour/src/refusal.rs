//! Document 01's refusal table.

use std::error::Error;
use std::fmt;

/// Why an operation was refused. The names are those of the proved library.
#[derive(Clone, Copy, Debug, PartialEq, Eq, Hash)]
#[non_exhaustive]
pub enum Refusal {
    /// 1
    NoMessage,
    /// 2
    Version,
    /// 3
    Layout,
    /// 4
    MessageLength,
    /// 5
    Sum,
    /// 6
    SpareBit,
    /// 7
    Losses,
    /// 8
    Packing,
    /// 9
    ListFull,
    /// 10
    ShortTarget,
    /// A number for which this wrapper has no name, as a newer library might return. It is handed on as a
    /// refusal, since only 0 says that an operation was done.
    Unknown(u32),
}

impl Refusal {
    /// The refusal that a number stands for. 0 stands for none, and is not to be given here.
    pub fn from_number(number: u32) -> Refusal {
        match number {
            1 => Refusal::NoMessage,
            2 => Refusal::Version,
            3 => Refusal::Layout,
            4 => Refusal::MessageLength,
            5 => Refusal::Sum,
            6 => Refusal::SpareBit,
            7 => Refusal::Losses,
            8 => Refusal::Packing,
            9 => Refusal::ListFull,
            10 => Refusal::ShortTarget,
            other => Refusal::Unknown(other),
        }
    }

    /// The number in the table's column "Returned".
    pub fn number(self) -> u32 {
        match self {
            Refusal::NoMessage => 1,
            Refusal::Version => 2,
            Refusal::Layout => 3,
            Refusal::MessageLength => 4,
            Refusal::Sum => 5,
            Refusal::SpareBit => 6,
            Refusal::Losses => 7,
            Refusal::Packing => 8,
            Refusal::ListFull => 9,
            Refusal::ShortTarget => 10,
            Refusal::Unknown(number) => number,
        }
    }

    /// The table's column "When".
    pub fn when(self) -> &'static str {
        match self {
            Refusal::NoMessage => "message under nine bytes, or another mark",
            Refusal::Version => "version not 1",
            Refusal::Layout => "layout not legal, or w outside 1 to 2,040",
            Refusal::MessageLength => "message length not the one its layout gives",
            Refusal::Sum => "a sum above the length of its string",
            Refusal::SpareBit => "a spare bit of the message is 1",
            Refusal::Losses => "m above n, or n − m above 12",
            Refusal::Packing => "a row or string of another byte count than its bits need, or a spare bit 1",
            Refusal::ListFull => "more consistent rows than fit whole in the list slice",
            Refusal::ShortTarget => "target slice shorter than what is to be written",
            Refusal::Unknown(_) => "for a reason that this wrapper does not know",
        }
    }
}

impl fmt::Display for Refusal {
    fn fmt(&self, f: &mut fmt::Formatter<'_>) -> fmt::Result {
        write!(f, "refused: {} ({})", self.when(), self.number())
    }
}

impl Error for Refusal {}

#[cfg(test)]
mod tests {
    use super::*;

    #[test]
    fn numbers_and_names_fit() {
        for number in 1..=20 {
            let refusal = Refusal::from_number(number);
            assert_eq!(refusal.number(), number);
            assert_eq!(matches!(refusal, Refusal::Unknown(_)), number > 10);
        }
        assert_eq!(Refusal::from_number(u32::MAX), Refusal::Unknown(u32::MAX));
    }

    #[test]
    fn says_why() {
        assert_eq!(Refusal::Version.to_string(), "refused: version not 1 (2)");
        assert_eq!(Refusal::Unknown(99).to_string(), "refused: for a reason that this wrapper does not know (99)");
    }
}
