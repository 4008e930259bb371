//! The two files that belong to a film, as docs/FORMAT.md describes them: its side messages ([`Messages`]) and the
//! rows that a line left of it ([`Received`]).
//!
//! Bytes from anywhere may be decoded: what does not follow the format is refused with a [`Fault`] that names the first
//! byte at which it departs from it. [`save`] never leaves a half-written file under the name that it is given.
#![forbid(unsafe_code)]

mod crc;
mod cursor;
#[cfg(test)]
mod damage;
mod fault;
mod messages;
mod received;
mod save;

pub use crc::crc32;
pub use fault::Fault;
pub use messages::{Head, Messages};
pub use received::{Origin, Received, Row};
pub use save::{nameless, replaced, save, save_from, stream};

/// The first four bytes of a file of messages.
pub const MESSAGES_MARK: [u8; 4] = *b"DHFM";

/// The first four bytes of a file of received rows.
pub const RECEIVED_MARK: [u8; 4] = *b"DHRX";

/// The version of both formats without the identity of a film, and the one with it.
pub const VERSION: u16 = 1;
pub const IDENTIFIED: u16 = 2;

/// What a row of the line is called, by its number and the number of panels: by its row of the film, and its panel where there
/// are several.
pub fn row_name(row: usize, panels: usize) -> String {
    match panels {
        1 => format!("row {row}"),
        panels => format!("row {} panel {}", row / panels, row % panels),
    }
}

/// The bytes that so many packed bits take.
pub fn bytes_for(bits: usize) -> usize {
    bits / 8 + usize::from(bits % 8 != 0)
}
