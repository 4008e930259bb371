//! What one thread of a run does: it takes rows from the board, lists them here or has a worker list them, and puts what came
//! out back.

use std::collections::VecDeque;
use std::path::Path;
use std::time::{Duration, Instant};

use dairyhour::LONGEST_LIST;

use crate::board::Board;
use crate::lister::{list_here, Outcome, Rows, Silence};
use crate::trouble::{Result, Trouble};
use crate::worker::{write_question, Ended, Worker};

/// The most rows that a worker is asked for at a time.
const MOST: usize = 64;

/// Rows that take less are asked for in larger numbers.
const QUICK: f64 = 0.001;

/// Rows that wait behind one that takes longer are left to other workers.
const MOVE: Duration = Duration::from_millis(100);

/// How long answers are waited for at most before other things are looked after.
const LOOK: Duration = Duration::from_millis(20);

/// Lists rows in this process until there are none left.
pub fn list<R: Rows>(rows: &R, board: &Board<R::Done>) {
    let mut list = vec![0; LONGEST_LIST];
    while let [row] = board.take(1, true)[..] {
        let outcome = list_here(&rows.task(row), &mut list);
        put(rows, board, vec![(row, outcome)]);
    }
}

/// Puts what came out of rows on the board.
fn put<R: Rows>(rows: &R, board: &Board<R::Done>, outcomes: Vec<(usize, Outcome)>) {
    let done: Vec<_> = outcomes.into_iter().map(|(row, outcome)| (row, rows.done(row, outcome))).collect();
    let bytes = done.iter().map(|(_, done)| rows.bytes(done)).sum();
    board.put(done, bytes);
}

/// A row that a worker was asked for.
struct Asked {
    row: usize,
    /// Its worker has ended once.
    again: bool,
    /// It was left to another worker; what this one answers does not count.
    moved: bool,
}

/// Has rows listed by a worker of its own.
pub struct Hand<'a, R: Rows> {
    rows: &'a R,
    board: &'a Board<R::Done>,
    program: &'a Path,
    patience: Duration,
    worker: Option<Worker>,
    /// The rows that the worker was asked for and has not answered; the first is the one that it is at.
    asked: VecDeque<Asked>,
    /// When it began with the first, or a little later.
    began: Instant,
    /// How many rows it is asked for at a time.
    room: usize,
}

impl<'a, R: Rows> Hand<'a, R> {
    pub fn new(rows: &'a R, board: &'a Board<R::Done>, program: &'a Path, patience: Duration) -> Hand<'a, R> {
        let (asked, began) = (VecDeque::new(), Instant::now());
        Hand { rows, board, program, patience, worker: None, asked, began, room: 1 }
    }

    /// Goes on until there are no rows left. An error only where no worker can be started; the rows in hand are then given
    /// back.
    pub fn work(&mut self) -> Result<()> {
        let done = self.work_on();
        if done.is_err() {
            self.move_rows(0);
        }
        done
    }

    fn work_on(&mut self) -> Result<()> {
        loop {
            if self.asked.len() <= self.room / 2 {
                let idle = self.asked.is_empty();
                let rows = self.board.take(self.room - self.asked.len(), idle);
                if idle && rows.is_empty() {
                    return Ok(());
                }
                self.ask(rows.into_iter().map(|row| Asked { row, again: false, moved: false }))?;
            }
            match self.worker.as_mut().map_or(Err(Ended), |worker| worker.answers(self.asked.len())) {
                Ok(answers) if answers.is_empty() => self.look(),
                Ok(answers) => self.answered(answers),
                Err(Ended) => self.ended()?,
            }
            if self.board.is_stopped() {
                return Ok(());
            }
        }
    }

    /// Asks the worker, or a new one, for rows. That a worker has ended shows when it does not answer.
    fn ask(&mut self, rows: impl Iterator<Item = Asked>) -> Result<()> {
        let mut questions = Vec::new();
        if self.asked.is_empty() {
            self.began = Instant::now();
        }
        for asked in rows {
            write_question(&mut questions, &self.rows.task(asked.row));
            self.asked.push_back(asked);
        }
        if self.worker.is_none() {
            let worker = Worker::start(self.program, LOOK.min(self.patience));
            self.worker = Some(worker.map_err(|error| self.not_started(&error))?);
        }
        if let Some(worker) = &mut self.worker {
            let _ = worker.ask(&questions);
        }
        Ok(())
    }

    fn not_started(&self, error: &std::io::Error) -> Trouble {
        Trouble::with(self.program.display(), format!("a worker cannot be started: {error}"))
    }

    /// Counts answers, and asks for more rows at a time if they came quickly.
    fn answered(&mut self, answers: Vec<Outcome>) {
        let quick = answers.iter().all(|outcome| outcome.seconds < QUICK);
        let mut outcomes = Vec::new();
        for outcome in answers {
            if let Some(Asked { row, moved: false, .. }) = self.asked.pop_front() {
                outcomes.push((row, outcome));
            }
        }
        put(self.rows, self.board, outcomes);
        self.began = Instant::now();
        self.room = if quick { MOST.min(2 * self.room) } else { 1 };
        // The worker is at rows that others are asked for: there is better work for a new one.
        if self.asked.front().map_or(false, |asked| asked.moved) {
            self.dismiss();
        }
    }

    /// No answer has come for a while: rows behind the first are left to others, and the first is given up when patience ends.
    fn look(&mut self) {
        let time = self.began.elapsed();
        if time >= self.patience {
            self.silent(Silence::TooLong, time);
        } else if time >= MOVE {
            self.move_rows(1);
        }
    }

    /// The worker has ended: the row that it was at is asked for once more, from a new one.
    fn ended(&mut self) -> Result<()> {
        let time = self.began.elapsed();
        match self.asked.front() {
            Some(Asked { row, again: false, .. }) if self.worker.is_some() => {
                let row = *row;
                self.move_rows(1);
                self.dismiss();
                self.ask([Asked { row, again: true, moved: false }].into_iter())
            }
            _ => {
                self.silent(Silence::Ended, time);
                Ok(())
            }
        }
    }

    /// The first row has no answer; its worker is killed, and the rows behind it are left to the next.
    fn silent(&mut self, silence: Silence, time: Duration) {
        self.move_rows(1);
        if let Some(Asked { row, .. }) = self.asked.pop_front() {
            let outcome = Outcome { answer: Err(silence), seconds: time.as_secs_f64() };
            put(self.rows, self.board, vec![(row, outcome)]);
        }
        self.dismiss();
    }

    /// Leaves the rows from this place on to other workers.
    fn move_rows(&mut self, first: usize) {
        let rows = self.asked.iter_mut().skip(first).filter(|asked| !asked.moved);
        self.board.give_back(rows.map(|asked| {
            asked.moved = true;
            asked.row
        }));
        self.room = 1;
    }

    /// Kills the worker; every row that it was asked for is done, given up or moved.
    fn dismiss(&mut self) {
        self.worker = None;
        self.asked.clear();
    }
}
