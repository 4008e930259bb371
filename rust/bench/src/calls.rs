//! Times writing, reading and mending beside a tuned peer, and writing also beside the plain reference: how
//! many calls a second, and how long the middle, the slow and the slowest call take.
//!
//! The two take turns, a few hundred calls each, so that whatever else the machine does hits both. Targets are
//! lent again for each call and are not cleared before it.

use std::io;
use std::path::PathBuf;
use std::time::Duration;

use bench::results::{Call, Store};
use dairyhour::{LONGEST_MESSAGE, MOST_FIELDS};
use reference::bits::{bytes_for, pack, unpack};
use reference::random::Random;
use reference::sum::sum;
use reference::Layout;

use crate::cases::layout_name;
use crate::clock::{clock_reading, compare};
use crate::films::{COLDFIRE_N2040, ECC83_N60};
use crate::peer;
use crate::rows::{every_kind, Rows};
use crate::words::pairs;

pub const USAGE: &str = "\
bench calls [WORD=VALUE]...
  seconds=2    for each operation on each kind of rows
  out=FOLDER   where calls.tsv is written; nowhere if not given";

/// Times what the words choose. Answers what went wrong.
pub fn run(words: &[String]) -> Result<(), String> {
    let (seconds, out) = choice(words).ok_or_else(|| format!("usage: {USAGE}"))?;
    let store = out.as_deref().map(Store::new::<Call>).transpose();
    let time = Duration::from_secs(seconds);
    store.and_then(|store| time_all(time, store)).map_err(|error| error.to_string())
}

fn choice(words: &[String]) -> Option<(u64, Option<PathBuf>)> {
    let (mut seconds, mut out) = (2, None);
    for (name, text) in pairs(words)? {
        match name {
            "seconds" => seconds = text.parse().ok()?,
            "out" => out = Some(PathBuf::from(text)),
            _ => return None,
        }
    }
    Some((seconds, out))
}

fn time_all(time: Duration, mut store: Option<Store>) -> io::Result<()> {
    println!("The times of single calls hold one reading of the clock, about {} ns.", clock_reading().as_nanos());
    for (layout, film) in [(Layout::new(15, 17, 8, 16), COLDFIRE_N2040), (Layout::new(5, 3, 4, 4), ECC83_N60)] {
        println!();
        println!("n = {}: layout {}", layout.row_bits(), layout_name(&layout));
        for rows in every_kind(layout.row_bits(), film) {
            for call in time_rows(layout, &rows, time) {
                store.as_mut().map_or(Ok(()), |store| store.add(&call))?;
            }
        }
    }
    Ok(())
}

/// Each operation on rows of one kind.
fn time_rows(layout: Layout, rows: &Rows, time: Duration) -> [Call; 4] {
    let Rows { kind, rows } = rows;
    let call = |operation: &str, other: &str, times: [f64; 6]| Call {
        layout: layout_name(&layout),
        operation: operation.into(),
        rows: String::from(*kind),
        other: other.into(),
        times,
    };
    let name = |operation: &str| format!("{operation}, {kind} rows");
    [
        call("write", "peer", write(&name("write"), layout, rows, time)),
        call("write", "plain", write_plain(&name("write"), layout, rows, time)),
        call("read", "peer", read(&name("read"), layout, rows, time)),
        call("mend", "peer", mend(&name("mend"), layout.row_bits(), rows, time)),
    ]
}

/// The number that stands for a refusal in the benchmark's comparison; no input here is refused.
const REFUSED: usize = usize::MAX;

/// The library's writer: answers the last byte of the message.
fn writer(layout: Layout, rows: &[Vec<u8>]) -> impl FnMut(usize) -> usize + '_ {
    let Layout { l1, l2, nc, r } = layout;
    let lent = dairyhour::Layout { l1, l2, nc, r };
    let mut out = [0; LONGEST_MESSAGE];
    move |i: usize| {
        let answer = dairyhour::write(lent, &rows[i % rows.len()], &mut out);
        answer.map_or(REFUSED, |length| last(&out[..length]))
    }
}

fn write(name: &str, layout: Layout, rows: &[Vec<u8>], time: Duration) -> [f64; 6] {
    let mut out = [0; LONGEST_MESSAGE];
    compare(name, time, writer(layout, rows), "peer", |i| {
        let answer = peer_write(&layout, &rows[i % rows.len()], &mut out);
        answer.map_or(REFUSED, |length| last(&out[..length]))
    })
}

fn write_plain(name: &str, layout: Layout, rows: &[Vec<u8>], time: Duration) -> [f64; 6] {
    compare(name, time, writer(layout, rows), "plain", |i| {
        let answer = reference::write(&layout, &rows[i % rows.len()], LONGEST_MESSAGE);
        answer.map_or(REFUSED, |message| last(&message))
    })
}

fn read(name: &str, layout: Layout, rows: &[Vec<u8>], time: Duration) -> [f64; 6] {
    let message = |row: &Vec<u8>| reference::write(&layout, row, LONGEST_MESSAGE).unwrap_or_default();
    let messages: Vec<Vec<u8>> = rows.iter().map(message).collect();
    let (mut ours, mut theirs) = ([0; MOST_FIELDS], [0; MOST_FIELDS]);
    let library = |i: usize| {
        let answer = dairyhour::read(&messages[i % rows.len()], &mut ours);
        answer.map_or(REFUSED, |layout| usize::from(ours[layout.l1]) + layout.l2)
    };
    compare(name, time, library, "peer", |i| {
        let answer = peer_read(&messages[i % rows.len()], &mut theirs);
        answer.map_or(REFUSED, |layout| usize::from(theirs[layout.l1]) + layout.l2)
    })
}

/// Each row is mended after one of its bits was dropped.
fn mend(name: &str, w: usize, rows: &[Vec<u8>], time: Duration) -> [f64; 6] {
    let mut random = Random::new(2);
    let sums: Vec<usize> = rows.iter().map(|row| sum(&unpack(row, w))).collect();
    let short = |row: &Vec<u8>| {
        let mut string = unpack(row, w);
        string.remove(random.below(w));
        pack(&string)
    };
    let strings: Vec<Vec<u8>> = rows.iter().map(short).collect();
    let (mut ours, mut theirs) = (vec![0; bytes_for(w)], vec![0; bytes_for(w)]);
    let library = |i: usize| {
        let answer = dairyhour::mend(w, sums[i % rows.len()], &strings[i % rows.len()], &mut ours);
        answer.map_or(REFUSED, |_| last(&ours))
    };
    compare(name, time, library, "peer", |i| {
        let answer = peer_mend(w, sums[i % rows.len()], &strings[i % rows.len()], &mut theirs);
        answer.map_or(REFUSED, |_| last(&theirs))
    })
}

/// The last byte written, by which the two are compared in passing.
fn last(bytes: &[u8]) -> usize {
    bytes.last().copied().map_or(0, usize::from)
}

// The library stands behind a call that the compiler cannot look into. So that it cannot leave out a part of
// the peer's work either, the peer is called without inlining.

#[inline(never)]
fn peer_write(layout: &Layout, row: &[u8], out: &mut [u8]) -> Result<usize, u32> {
    peer::write(layout, row, out)
}

#[inline(never)]
fn peer_read(message: &[u8], out: &mut [u16]) -> Result<Layout, u32> {
    peer::read(message, out)
}

#[inline(never)]
fn peer_mend(w: usize, sum: usize, bits: &[u8], out: &mut [u8]) -> Result<(), u32> {
    peer::mend(w, sum, bits, out)
}
