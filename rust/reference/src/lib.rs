//! Document 01 in plain Rust: layouts, sums, checks, messages, mending, listing, and what is refused.
//!
//! It is written from the document and shares nothing with the library, so that the tests compare two
//! independent readings. It answers what is to be written as a new vector and leaves the slices to the tests.
//! [`steps`] lists as the source's own steps do: tests compare the two lists, and the benchmark times them.
#![forbid(unsafe_code)]

pub mod bits;
pub mod field;
pub mod layout;
pub mod limits;
pub mod list;
pub mod mend;
pub mod message;
pub mod random;
pub mod refusal;
pub mod samples;
pub mod steps;
pub mod sum;

pub use layout::Layout;
pub use list::list;
pub use mend::mend;
pub use message::{read, write};
