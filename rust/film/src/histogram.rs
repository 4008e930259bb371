//! Counts by kind, as words of a report.

use std::collections::BTreeMap;
use std::fmt::Display;

/// How many kinds are shown; the others are counted together. A report for programs has all of them.
const SHOWN: usize = 16;

/// ` (what; 2: 3, 5: 1)`, with ` and 40 others: 52` behind the first kinds where there are many, or nothing where there are
/// none.
pub fn words<K: Display>(what: &str, counts: &BTreeMap<K, usize>) -> String {
    if counts.is_empty() {
        return String::new();
    }
    let parts: Vec<String> = counts.iter().take(SHOWN).map(|(key, count)| format!("{key}: {count}")).collect();
    let others: Vec<usize> = counts.values().skip(SHOWN).copied().collect();
    let others = match others.len() {
        0 => String::new(),
        1 => format!(" and 1 other: {}", others[0]),
        kinds => format!(" and {kinds} others: {}", others.iter().sum::<usize>()),
    };
    format!(" ({what}; {}{others})", parts.join(", "))
}

#[cfg(test)]
mod tests {
    use super::*;

    #[test]
    fn long_ones_are_cut() {
        let counts = |kinds: usize| (0..kinds).map(|kind| (kind, 2)).collect::<BTreeMap<_, _>>();
        assert_eq!(words("a: b", &counts(0)), "");
        assert_eq!(words("a: b", &counts(2)), " (a: b; 0: 2, 1: 2)");
        assert!(words("a: b", &counts(16)).ends_with(", 15: 2)"));
        assert!(words("a: b", &counts(17)).ends_with(", 15: 2 and 1 other: 2)"));
        assert!(words("a: b", &counts(500)).ends_with(", 15: 2 and 484 others: 968)"));
    }
}
