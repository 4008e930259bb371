//! What the benchmark stores of its runs, for the programs that show it.
#![forbid(unsafe_code)]

pub mod results;
pub mod text;
