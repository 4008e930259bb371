//! `stack list L1 L2 LOSSES BYTES` lists on a thread with a stack of so many bytes, and ends with status 0 if the row that was sent is
//! listed. `stack measure` prints for each line of the table in the header what lists take, and what to write there.
#![forbid(unsafe_code)]

use std::env;
use std::process::{Command, ExitCode, Stdio};

use tester::stack::{table, Case, Line};

/// More than any list takes, in KB.
const ENOUGH: usize = 8192;

fn main() -> ExitCode {
    let words: Vec<String> = env::args().skip(1).collect();
    let words: Vec<&str> = words.iter().map(String::as_str).collect();
    let done = match words[..] {
        ["list", l1, l2, losses, bytes] => match (Case::parse(l1, l2, losses), bytes.parse()) {
            (Some(case), Ok(bytes)) => case.is_listed_on(bytes),
            _ => false,
        },
        ["measure"] => measure(),
        _ => {
            eprintln!("usage: stack list L1 L2 LOSSES BYTES | stack measure");
            false
        }
    };
    ExitCode::from(u8::from(!done))
}

fn measure() -> bool {
    for line in table() {
        let taken = line.cases().into_iter().map(smallest).max().unwrap_or(0);
        let (stated, to_state) = (line.kb, Line::to_state(taken));
        println!(
            "l1 up to {:3}: {taken} KB are taken; {stated} KB are stated, {to_state} KB to be stated",
            line.blocks
        );
    }
    true
}

/// The smallest stack in KB on which a case is listed.
fn smallest(case: Case) -> usize {
    let (mut low, mut high) = (0, ENOUGH);
    while high - low > 1 {
        let middle = (low + high) / 2;
        if is_listed_on(case, middle * 1024) {
            high = middle;
        } else {
            low = middle;
        }
    }
    high
}

/// In a process of its own, which a stack that is too small ends.
fn is_listed_on(case: Case, bytes: usize) -> bool {
    let program = env::current_exe().expect("the name of this program");
    let mut command = Command::new(program);
    command.arg("list").args(case.words()).arg(bytes.to_string()).stderr(Stdio::null());
    command.status().map_or(false, |status| status.success())
}
