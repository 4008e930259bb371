//! Why a file was refused.

use std::error::Error;
use std::fmt;

/// The first byte, counted from 0, at which a file departs from its format, and in what way.
#[derive(Clone, Debug, PartialEq, Eq)]
pub struct Fault {
    pub byte: usize,
    pub what: String,
}

impl Fault {
    pub fn new(byte: usize, what: impl Into<String>) -> Fault {
        Fault { byte, what: what.into() }
    }
}

impl fmt::Display for Fault {
    fn fmt(&self, f: &mut fmt::Formatter<'_>) -> fmt::Result {
        write!(f, "byte {}: {}", self.byte, self.what)
    }
}

impl Error for Fault {}
