//! The program rowlist, run on standard input and compared with the reference. Its path is in the variable
//! ROWLIST, which `tools/test.sh` sets; without that it is looked for where `rt run` puts it, and where it is not
//! there nothing is tested.

use std::fs::File;
use std::io::Write;
use std::path::{Path, PathBuf};
use std::process::{Command, Stdio};
use std::{env, thread};

use reference::limits::MOST_LOSSES;
use reference::list::{by_supersequences, judge_by, Listed};
use reference::random::Random;
use reference::Layout;
use tester::damage::some_bytes;
use tester::{bytes, hex, Received};

/// "At most the first 4,096 bytes"; "its list slice has 4,096 bytes".
const MOST_INPUT: usize = 4096;
const LIST_BYTES: usize = 4096;

/// Document 01's example, and what is printed for it.
const EXAMPLE: [u8; 16] =
    [0x00, 0x0B, 0x52, 0x53, 0x4D, 0x00, 0x01, 0x02, 0x01, 0x04, 0x00, 0x40, 0x80, 0x00, 0x06, 0x3C];
const PRINTED: &str = "count 2\n36\n39\n";

/// The program, if there is one. A path that is given must lead to it.
fn program() -> Option<PathBuf> {
    if let Some(path) = env::var_os("ROWLIST").map(PathBuf::from) {
        assert!(path.is_file(), "ROWLIST is {}, where no program is", path.display());
        return Some(path);
    }
    let built = Path::new(env!("CARGO_MANIFEST_DIR")).join("../../crates/rowlist/out/rowlist");
    if !built.is_file() {
        eprintln!("There is no program {}, so it is not run.", built.display());
        return None;
    }
    Some(built)
}

/// What the program prints. It may end before it has read all that is written to it.
fn run(program: &Path, input: &[u8]) -> String {
    let mut child =
        Command::new(program).stdin(Stdio::piped()).stdout(Stdio::piped()).spawn().expect("the program starts");
    let mut stdin = child.stdin.take().expect("its standard input");
    let bytes = input.to_vec();
    let writer = thread::spawn(move || stdin.write_all(&bytes));
    let output = child.wait_with_output().expect("the program ends");
    let _ = writer.join().expect("the writer ends");
    assert!(output.status.success(), "{} on {}", output.status, hex(input));
    String::from_utf8(output.stdout).expect("plain text")
}

/// A length from the first two bytes, 0 if there are fewer, which are then used up; and the rest.
fn take_length(input: &[u8]) -> (usize, &[u8]) {
    match input {
        [high, low, rest @ ..] => (usize::from(*high) * 256 + usize::from(*low), rest),
        _ => (0, &[]),
    }
}

/// What the program is to print.
fn expected(input: &[u8]) -> String {
    let (length, rest) = take_length(&input[..input.len().min(MOST_INPUT)]);
    let (message, rest) = rest.split_at(length.min(rest.len()));
    let (m, row) = take_length(rest);
    let Listed { answer, written } = judge_by(by_supersequences, message, row, m).listed(LIST_BYTES);
    match answer {
        Err(number) => format!("refused {number}\n"),
        Ok(0) => String::from("count 0\n"),
        Ok(count) => {
            let digits = |row: &[u8]| row.iter().map(|byte| format!("{byte:02X}")).collect::<String>();
            let lines: Vec<String> = written.chunks(written.len() / count).map(digits).collect();
            format!("count {count}\n{}\n", lines.join("\n"))
        }
    }
}

/// Runs the program, if there is one, and compares what it prints.
fn agree(program: &Option<PathBuf>, input: &[u8]) {
    if let Some(program) = program {
        assert_eq!(run(program, input), expected(input), "input {}", hex(input));
    }
}

/// The input for what was received.
fn input(received: &Received) -> Vec<u8> {
    let two_bytes = |number: usize| [(number / 256) as u8, (number % 256) as u8];
    let message = &received.message;
    [&two_bytes(message.len())[..], message, &two_bytes(received.m), &received.row].concat()
}

#[test]
fn the_example() {
    assert_eq!(expected(&EXAMPLE), PRINTED);
    agree(&program(), &EXAMPLE);
}

/// What cannot be read, and an answer that cannot be written, end the program with another status, and nothing is printed.
#[test]
fn failing_streams() {
    let Some(program) = program() else { return };
    let run = |stdin: Stdio, stdout: Stdio| {
        let mut command = Command::new(&program);
        command.stdin(stdin).stdout(stdout).stderr(Stdio::piped()).output().expect("the program runs")
    };
    let folder = File::open(env!("CARGO_MANIFEST_DIR")).expect("a folder");
    let unread = run(folder.into(), Stdio::piped());
    assert_eq!((unread.status.code(), unread.stdout.is_empty(), unread.stderr.is_empty()), (Some(1), true, false));
    if let Ok(full) = File::options().write(true).open("/dev/full") {
        let unwritten = run(Stdio::null(), full.into());
        assert_eq!((unwritten.status.code(), unwritten.stderr.is_empty()), (Some(1), false));
    }
}

/// Stored inputs and what is printed for them, now and in years: `count=2,36,39` stands for three lines.
#[test]
fn stored() {
    let program = program();
    let lines: Vec<&str> =
        include_str!("../stored/rowlist.txt").lines().filter(|line| !line.starts_with('#')).collect();
    assert!(lines.len() >= 80);
    for line in lines {
        let words: Vec<&str> = line.split(' ').collect();
        let (input, printed) = (bytes(words[1]), words[2].replace('=', " ").replace(',', "\n") + "\n");
        assert_eq!(expected(&input), printed, "{line}");
        agree(&program, &input);
    }
}

/// The example, cut at every place, also to nothing; and with bytes behind the row's own. Where the message is whole
/// and m is missing, no bits were received.
#[test]
fn truncated_and_longer_input() {
    let program = program();
    for length in 0..EXAMPLE.len() {
        assert_eq!(expected(&EXAMPLE[..length]).starts_with("count"), length == 13 || length == 14);
        agree(&program, &EXAMPLE[..length]);
    }
    assert_eq!(expected(&[&EXAMPLE[..], &[0]].concat()), "refused 8\n");
    agree(&program, &[&EXAMPLE[..], &[0]].concat());
}

/// More input than is read: the message is longer than all of it, or the row is.
#[test]
fn more_than_4096_bytes() {
    let program = program();
    for length in [4095, 4096, 4097, 5000, 70_000] {
        for (high, low) in [(0x00, 0x0B), (0x0F, 0xFF), (0x10, 0x00), (0xFF, 0xFF)] {
            let mut bytes = EXAMPLE.to_vec();
            bytes[..2].copy_from_slice(&[high, low]);
            bytes.resize(length, 0);
            agree(&program, &bytes);
        }
    }
}

/// Any bytes, and any bytes behind a length and a mark.
#[test]
fn garbage() {
    let program = program();
    for seed in 12_000_000..12_000_060 {
        let mut random = Random::new(seed);
        let mut bytes = some_bytes(64, false, &mut random);
        if seed % 2 == 0 && bytes.len() >= 7 {
            bytes[..7].copy_from_slice(&EXAMPLE[..7]);
        }
        agree(&program, &bytes);
    }
}

/// Some hundred samples of all kinds under layouts of up to 16 bits.
#[test]
fn samples() {
    let program = program();
    let small = |layout: &Layout| layout.row_bits() <= 16;
    let layouts: Vec<Layout> = Layout::every_legal().into_iter().filter(small).collect();
    for seed in 13_000_000..13_000_300 {
        let layout = Layout { r: seed as usize % 4, ..layouts[seed as usize % layouts.len()] };
        agree(&program, &input(&Received::any(&layout, seed)));
    }
}

/// Lists that fill the program's list slice, and lists that do not fit.
#[test]
fn long_lists() {
    let program = program();
    for seed in 14_000_000..14_000_006 {
        let layout = Layout::new(3 + seed as usize % 2, 1, 8, 0);
        let (kind, losses) = (reference::samples::Kind::Random, reference::samples::Losses::Uniform);
        let received = Received::sample(&layout, kind, losses, MOST_LOSSES, tester::Message::Own, seed);
        agree(&program, &input(&received));
    }
}
