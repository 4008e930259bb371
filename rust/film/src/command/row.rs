//! `film row`: one row from words on the command line.

use std::borrow::Cow;
use std::sync::Arc;

use crate::args::{Row, Work};
use crate::lister::{row_bits, row_bytes, Lister, Next, Outcome, Rows, Task};
use crate::progress::Progress;
use crate::stop::{Stop, INTERRUPTED};
use crate::trouble::Result;
use crate::verdict::{Loss, Verdict};
use crate::{files, hex};

/// How many seconds the row may take unless it is said.
const PATIENCE: f64 = 60.0;

/// A message and what arrived of its row.
struct One {
    message: Vec<u8>,
    bits: u16,
    row: Vec<u8>,
}

impl Rows for One {
    type Done = Outcome;

    fn task(&self, _: usize) -> Task<'_> {
        Task { message: Cow::Borrowed(&self.message), bits: self.bits, row: Cow::Borrowed(&self.row) }
    }

    fn done(&self, _: usize, outcome: Outcome) -> Outcome {
        outcome
    }

    fn bytes(&self, done: &Outcome) -> usize {
        done.answer.as_ref().map_or(0, |answer| answer.rows.len())
    }
}

/// Status 0 where one row can have been sent, 1 where none or several can or that is not known, and 2 where the words are no
/// message and row.
pub fn run(args: &Row) -> Result<u8> {
    let one = Arc::new(One { message: args.message.0.clone(), bits: args.bits, row: args.row.0.clone() });
    let work = Work { jobs: Some(1), patience: args.patience, deadline: None, worker: args.worker.clone() };
    let stop = Stop::new(None)?;
    let mut outcome = None;
    let run = Lister::new(&work, PATIENCE)?.run(&one, 1, &stop, &mut Progress::new(1, true), |_, done| {
        outcome = Some(done);
        Next::Go
    })?;
    run.trouble.map_or(Ok(()), Err)?;
    outcome.map_or(Ok(INTERRUPTED), |outcome| say(&one, &outcome))
}

/// Says what came out as rowlist does, and a refusal also in words.
fn say(one: &One, outcome: &Outcome) -> Result<u8> {
    let loss = Loss::new(row_bits(&one.message), one.bits.into());
    let answer = outcome.answer.as_ref();
    let verdict = Verdict::new(outcome, loss, answer.map_or(0, |answer| answer.count));
    let mut text = verdict.code() + "\n";
    if let (Verdict::Rows(_), Ok(answer)) = (verdict, answer) {
        for row in answer.rows.chunks_exact(row_bytes(&one.message)) {
            hex::push(&mut text, row);
            text.push('\n');
        }
    }
    files::say(&text, None)?;
    match verdict {
        Verdict::Rows(1) => return Ok(0),
        Verdict::Refused(..) => files::complain(&format!("film: {}", verdict.words())),
        _ => {}
    }
    Ok(if matches!(verdict, Verdict::Refused(1..=6 | 8, _)) { 2 } else { 1 })
}
