//! Words on the command line of the form NAME=VALUES.

use std::str::FromStr;

/// Name and value of each word, or nothing if one has no `=`.
pub fn pairs(words: &[String]) -> Option<Vec<(&str, &str)>> {
    words.iter().map(|word| word.split_once('=')).collect()
}

/// Values parted by commas.
pub fn values<T: FromStr>(text: &str) -> Option<Vec<T>> {
    text.split(',').map(|value| value.parse().ok()).collect()
}

/// The entries with these names.
pub fn named<T: Copy>(entries: &[(&'static str, T)], names: &str) -> Option<Vec<(&'static str, T)>> {
    names.split(',').map(|name| entries.iter().find(|entry| entry.0 == name).copied()).collect()
}
