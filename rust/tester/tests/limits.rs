//! The header, the wrapper and the reference have the same limits.

use dairyhour::{LONGEST_ROW, MOST_CHECKS, MOST_LOSSES};
use reference::bits::bytes_for;
use reference::limits;

const HEADER: &str = include_str!("../../../include/dairyhour.h");

/// The number that the header defines under a name.
fn defined(name: &str) -> Option<usize> {
    let number = |line: &str| {
        let mut words = line.strip_prefix("#define ")?.split_whitespace();
        (words.next()? == name).then(|| words.next()?.parse().ok())?
    };
    HEADER.lines().find_map(number)
}

#[test]
fn the_wrapper_has_what_the_header_defines() {
    assert_eq!(defined("DH_LONGEST_MESSAGE"), Some(dairyhour::LONGEST_MESSAGE));
    assert_eq!(defined("DH_MOST_FIELDS"), Some(dairyhour::MOST_FIELDS));
    assert_eq!(defined("DH_LONGEST_STRING"), Some(dairyhour::LONGEST_STRING));
    assert_eq!(defined("DH_LONGEST_LIST"), Some(dairyhour::LONGEST_LIST));
    assert_eq!(defined("DH_NONE"), None);
    let all = HEADER.lines().filter(|line| line.starts_with("#define DH_")).count();
    assert_eq!(all, 4, "each number that is defined is compared");
}

#[test]
fn the_wrapper_has_what_the_reference_has() {
    assert_eq!(dairyhour::SHORTEST_CHUNK, limits::SHORTEST_CHUNK);
    assert_eq!(dairyhour::LONGEST_CHUNK, limits::LONGEST_CHUNK);
    assert_eq!(dairyhour::MOST_CHUNKS, limits::MOST_CHUNKS);
    assert_eq!(dairyhour::MOST_CHECKS, limits::MOST_CHECKS);
    assert_eq!(dairyhour::LONGEST_ROW, limits::LONGEST_ROW);
    assert_eq!(dairyhour::LONGEST_STRING, bytes_for(limits::LONGEST_ROW));
    assert_eq!(dairyhour::MOST_LOSSES, limits::MOST_LOSSES);
    assert_eq!(dairyhour::LONGEST_MESSAGE, limits::LONGEST_MESSAGE);
    assert_eq!(dairyhour::LONGEST_LIST, limits::LONGEST_LIST);
}

/// The limits that stand in the header's words, and in those of refusals.
#[test]
fn the_words_name_the_limits() {
    let longest = format!("{},{:03}", LONGEST_ROW / 1000, LONGEST_ROW % 1000);
    let chunks = format!("{} <= nc <= {}", limits::SHORTEST_CHUNK, limits::LONGEST_CHUNK);
    assert!(HEADER.contains(&format!("{chunks}, l1 * l2 <= 2^nc - 1, and r <= {MOST_CHECKS}.")));
    assert!(HEADER.contains(&format!("So n is at most {longest}.")));
    assert!(HEADER.contains(&format!("w is outside 1 to {longest}\n")));
    assert!(HEADER.contains(&format!("more than {MOST_LOSSES} were lost\n")));
    assert!(dairyhour::Refusal::Layout.when().ends_with(&format!("w outside 1 to {longest}")));
    assert!(dairyhour::Refusal::Losses.when().ends_with(&format!("above {MOST_LOSSES}")));
}
