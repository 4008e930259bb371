//! What the tests share: slices as they are lent to the library, and calls whose answer and whose every byte
//! are compared with the reference. An operation is tested by an [`Operation`] of its own: what it lends, what the
//! reference says, and its two calls. All else is the same for each.
//!
//! Each call is made twice. The first time it goes over the C boundary as it is, the second time through the
//! wrapper; what stands in the targets and around all slices is noise the first time and its complement the
//! second, so that a byte left alone, a byte touched and a byte read from outside all show.
#![forbid(unsafe_code)]

pub mod damage;
mod lent;
mod operation;
mod operations;
mod received;
pub mod stack;

pub use lent::{Cell, Lent, Noise};
pub use operation::{agree, agree_in_rooms, agree_on_the_least, rooms, Due, Operation};
pub use operations::{agree_list, agree_mend, agree_read, agree_write, List, Mend, Read, Write};
pub use received::{Message, Received};

/// Bytes in hexadecimal, for messages of failed tests.
pub fn hex(bytes: &[u8]) -> String {
    let digits: Vec<String> = bytes.iter().map(|byte| format!("{byte:02X}")).collect();
    digits.join(" ")
}

/// The bytes that a word of a stored line spells; `-` is the empty string.
pub fn bytes(word: &str) -> Vec<u8> {
    let digits = if word == "-" { "" } else { word };
    assert_eq!(digits.len() % 2, 0, "{word}");
    let byte = |i: usize| u8::from_str_radix(&digits[2 * i..2 * i + 2], 16).expect("two hexadecimal digits");
    (0..digits.len() / 2).map(byte).collect()
}
