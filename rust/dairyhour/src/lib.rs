//! Safe calls to the library that is proved in Rattle: the side message of a row is written and read, every row
//! that a message and a short row allow is listed, and a string that lacks one bit is mended.
//!
//! The header `include/dairyhour.h` says what a row, a layout, a message and the list are, and how bits are
//! packed. Any number and any slice may be given: unfit input is refused, with the first number that applies,
//! and every slice is then as it was, but for what [`list`] says of refusal 9.
//!
//! ```
//! use dairyhour::{read, write, Layout, Refusal, LONGEST_MESSAGE, MOST_FIELDS};
//!
//! let layout = Layout { l1: 5, l2: 3, nc: 4, r: 4 };
//! let row = [0x4A, 0x50, 0x3E, 0x77, 0x10, 0x24, 0x46, 0x80];
//! let mut message = [0; LONGEST_MESSAGE];
//! let length = write(layout, &row, &mut message)?;
//! assert_eq!(length, 16);
//!
//! let mut fields = [0; MOST_FIELDS];
//! assert_eq!(read(&message[..length], &mut fields), Ok(layout));
//! assert_eq!(fields[..5], [10, 6, 3, 4, 11]);
//! assert_eq!(read(&message[..8], &mut fields), Err(Refusal::NoMessage));
//! # Ok::<(), Refusal>(())
//! ```
#![deny(unsafe_code)]

#[allow(unsafe_code)]
pub mod boundary;
mod limits;
mod refusal;

pub use limits::{
    LONGEST_CHUNK, LONGEST_LIST, LONGEST_MESSAGE, LONGEST_ROW, LONGEST_STRING, MOST_CHECKS, MOST_CHUNKS, MOST_FIELDS,
    MOST_LOSSES, SHORTEST_CHUNK,
};
pub use refusal::Refusal;

/// How a row is cut: `l1` blocks of `l2` chunks of `nc` bits, with `r` checks.
#[derive(Clone, Copy, Debug, PartialEq, Eq, Hash)]
pub struct Layout {
    pub l1: usize,
    pub l2: usize,
    pub nc: usize,
    pub r: usize,
}

/// Writes the message of a packed row to the start of `out`, and answers its length in bytes. Refused, in
/// this order, by 3, 8 and 10.
pub fn write(layout: Layout, row: &[u8], out: &mut [u8]) -> Result<usize, Refusal> {
    let answer = boundary::write(layout.l1, layout.l2, layout.nc, layout.r, row, out);
    done_or_refused(answer.refusal)?;
    Ok(answer.value)
}

/// Reads a message: answers its layout, and puts the block sums, the chunk-string sums and the checks, in
/// that order, to the start of `out`. Refused, in this order, by 1, 2, 3, 4, 5, 6 and 10.
pub fn read(message: &[u8], out: &mut [u16]) -> Result<Layout, Refusal> {
    let answer = boundary::read(message, out);
    done_or_refused(answer.refusal)?;
    Ok(Layout { l1: answer.l1, l2: answer.l2, nc: answer.nc, r: answer.r })
}

/// Writes to the start of `out` the one string of `w` bits that has this sum and from which the `w` − 1
/// packed `bits` come by one deletion. Refused, in this order, by 3, 5, 8 and 10.
pub fn mend(w: usize, sum: usize, bits: &[u8], out: &mut [u8]) -> Result<(), Refusal> {
    done_or_refused(boundary::mend(w, sum, bits, out).refusal)
}

/// Lists the rows that are consistent with a message and the `m` packed bits of a received row: writes them to
/// the start of `out`, packed one after another in dictionary order, and answers how many they are. Refused, in
/// this order, by 1 to 9. After 9, more rows than fit in the first [`LONGEST_LIST`] bytes of `out`, `out` holds
/// as many of the first as fit.
///
/// ```
/// use dairyhour::{list, Refusal};
///
/// let message = [0x52, 0x53, 0x4D, 0, 1, 2, 1, 4, 0, 0x40, 0x80];
/// let mut rows = [0; 16];
/// assert_eq!(list(&message, &[0x3C], 6, &mut rows), Ok(2));
/// assert_eq!(rows[..2], [0x36, 0x39]);
/// assert_eq!(list(&message, &[0x3C], 6, &mut rows[..1]), Err(Refusal::ListFull));
/// assert_eq!(rows[..1], [0x36]);
/// ```
pub fn list(message: &[u8], row: &[u8], m: usize, out: &mut [u8]) -> Result<usize, Refusal> {
    let answer = boundary::list(message, row, m, out);
    done_or_refused(answer.refusal)?;
    Ok(answer.value)
}

fn done_or_refused(number: u32) -> Result<(), Refusal> {
    match number {
        0 => Ok(()),
        number => Err(Refusal::from_number(number)),
    }
}

/// The Rust program of the README, which is compiled and run with the other examples.
#[cfg(doctest)]
#[doc = include_str!("../../../README.md")]
struct Readme;
