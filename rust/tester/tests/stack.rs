//! Listing takes no more stack than the table in the header says, with a margin, the start of a thread counted.

use std::process::Command;

use tester::stack::{table, Case, Line};

/// Lists in a process of its own, so that a stack that is too small shows as a failed test.
fn is_listed_on(case: Case, bytes: usize) -> bool {
    let mut command = Command::new(env!("CARGO_BIN_EXE_stack"));
    command.arg("list").args(case.words()).arg(bytes.to_string());
    command.output().expect("the program stack").status.success()
}

#[test]
fn the_header_has_the_table() {
    let lines = table();
    assert!(lines.windows(2).all(|pair| pair[0].blocks < pair[1].blocks && pair[0].kb < pair[1].kb), "{lines:?}");
    // No layout has more blocks.
    assert_eq!(lines.last().map(|line| line.blocks), Some(255));
    assert_eq!([100, 467].map(Line::to_state), [128, 544]);
}

#[test]
fn lists_take_less_stack_than_the_header_says() {
    for line in table() {
        for case in line.cases() {
            let bytes = line.without_margin();
            assert!(is_listed_on(case, bytes), "{case:?} is not listed on {bytes} bytes; run `stack measure`");
        }
    }
}

/// That a stack is too small is seen.
#[test]
fn a_small_stack_is_too_small() {
    let deepest = table().into_iter().flat_map(Line::cases).last().expect("a case");
    assert!(!is_listed_on(deepest, 16 * 1024));
}
