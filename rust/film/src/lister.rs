//! Lists rows, here or in worker processes, on as many threads as are wanted.

use std::borrow::Cow;
use std::io;
use std::path::PathBuf;
use std::sync::Arc;
use std::time::{Duration, Instant};
use std::{env, thread};

use dairyhour::Refusal;

use crate::args::Work;
use crate::board::Board;
use crate::hand::{self, Hand};
use crate::progress::Progress;
use crate::stop::Stop;
use crate::trouble::{Result, Trouble};

/// The stack of each thread, in bytes: several times what a list takes.
const STACK: usize = 2 << 20;

/// How often the bar is drawn, and interrupts and the deadline are looked for.
const LOOK: Duration = Duration::from_millis(20);

/// How long a run that was stopped waits for the rows in hand.
const GRACE: Duration = Duration::from_millis(200);

/// What is to be listed: a message, and the received row with its number of bits.
#[derive(Clone)]
pub struct Task<'a> {
    pub message: Cow<'a, [u8]>,
    pub bits: u16,
    pub row: Cow<'a, [u8]>,
}

/// What the library answers: refusal 0 and the number of rows, or a refusal. `rows` has the rows of the list, after
/// refusal 9 its first ones.
#[derive(Clone, Debug, PartialEq, Eq)]
pub struct Answer {
    pub refusal: u32,
    pub count: usize,
    pub rows: Vec<u8>,
}

/// Why there is no answer.
#[derive(Clone, Copy, Debug, PartialEq, Eq)]
pub enum Silence {
    /// It took longer than patience lasts.
    TooLong,
    /// The worker ended, and so did another one.
    Ended,
    /// The run was stopped before.
    NotDone,
}

/// The answer of the library, or why there is none, and the time it took.
#[derive(Clone, Debug)]
pub struct Outcome {
    pub answer: std::result::Result<Answer, Silence>,
    pub seconds: f64,
}

/// Lists in this process. `list` is lent for it and has the longest list's length.
pub fn list_here(task: &Task<'_>, list: &mut [u8]) -> Outcome {
    let began = Instant::now();
    let answer = dairyhour::list(&task.message, &task.row, usize::from(task.bits), list);
    let seconds = began.elapsed().as_secs_f64();
    let each = row_bytes(&task.message);
    let (refusal, count, written) = match answer {
        Ok(count) => (0, count, count * each),
        Err(Refusal::ListFull) => (Refusal::ListFull.number(), 0, list.len() / each * each),
        Err(refusal) => (refusal.number(), 0, 0),
    };
    Outcome { answer: Ok(Answer { refusal, count, rows: list[..written].to_vec() }), seconds }
}

/// The bits of a row under the layout of a message.
pub fn row_bits(message: &[u8]) -> usize {
    message.iter().skip(5).take(3).map(|number| usize::from(*number)).product()
}

/// The bytes of a row under the layout of a message; 1 where there is none.
pub fn row_bytes(message: &[u8]) -> usize {
    container::bytes_for(row_bits(message)).max(1)
}

/// Rows that are to be listed. Its functions are called on the threads of a run.
pub trait Rows: Send + Sync + 'static {
    /// What is kept of a row.
    type Done: Send + 'static;

    fn task(&self, row: usize) -> Task<'_>;

    fn done(&self, row: usize, outcome: Outcome) -> Self::Done;

    /// How many bytes it takes, about.
    fn bytes(&self, done: &Self::Done) -> usize;
}

/// What a run is to do after a row.
#[derive(Clone, Copy, PartialEq, Eq)]
pub enum Next {
    Go,
    /// Begin no new row before one that is begun is done.
    Hold,
    Stop,
}

/// Which rows were reached.
pub struct Run {
    done: usize,
    reached: Vec<bool>,
    /// Why the others were not, where no thread could go on.
    pub trouble: Option<Trouble>,
}

impl Run {
    fn reach(&mut self, row: usize) {
        self.done += 1;
        self.reached[row] = true;
    }

    fn ended(mut self, trouble: Option<Trouble>) -> Result<Run> {
        self.trouble = trouble.filter(|_| self.done < self.reached.len());
        match self.trouble.take() {
            Some(trouble) if self.done == 0 => Err(trouble),
            trouble => Ok(Run { trouble, ..self }),
        }
    }

    /// The rows that were not reached.
    pub fn rest(&self) -> impl Iterator<Item = usize> + '_ {
        (0..self.reached.len()).filter(|row| !self.reached[*row])
    }
}

/// Lists rows with patience, in worker processes.
pub struct Lister {
    /// None: without end, and in this process.
    patience: Option<Duration>,
    program: PathBuf,
    jobs: usize,
}

impl Lister {
    /// As it is asked for, with this patience in seconds unless another one is.
    pub fn new(work: &Work, patience: f64) -> Result<Lister> {
        let program = match &work.worker {
            Some(program) => program.clone(),
            None => env::current_exe().map_err(|error| Trouble::with("the worker", error))?,
        };
        let patience = work.patience.unwrap_or(patience);
        let patience = (patience > 0.0).then(|| Duration::from_secs_f64(patience));
        let processors = || thread::available_parallelism().map_or(1, usize::from);
        Ok(Lister { patience, program, jobs: work.jobs.map_or_else(processors, usize::from) })
    }

    /// Lists so many rows on this lister's threads. Each row that is done is handed to `sink`, in no order; no more of them are
    /// kept than are in hand. An error where no row could be listed, since no thread or worker can be started.
    pub fn run<R: Rows>(
        &self,
        rows: &Arc<R>,
        count: usize,
        stop: &Stop,
        progress: &mut Progress,
        mut sink: impl FnMut(usize, R::Done) -> Next,
    ) -> Result<Run> {
        let jobs = self.jobs.min(count).max(1);
        let board = Arc::new(Board::new(count, jobs));
        start(jobs, &board, || self.thread(rows, &board))?;
        let mut run = Run { done: 0, reached: vec![false; count], trouble: None };
        let mut enough = false;
        let mut stopped: Option<Instant> = None;
        while stopped.map_or(true, |since| since.elapsed() < GRACE) {
            let news = board.fetch(LOOK);
            for (row, done) in news.done {
                run.reach(row);
                let next = sink(row, done);
                board.hold(next == Next::Hold);
                enough |= next == Next::Stop;
            }
            if stopped.is_none() && (enough || stop.is_due()) {
                stopped = Some(Instant::now());
                board.stop();
            }
            progress.show(run.done);
            if news.last {
                break;
            }
        }
        progress.end();
        run.ended(board.trouble().filter(|_| stopped.is_none()))
    }

    /// Starts a thread that lists rows from the board. It is never waited for, as it may be at a row without end.
    fn thread<R: Rows>(&self, rows: &Arc<R>, board: &Arc<Board<R::Done>>) -> io::Result<()> {
        let (rows, board, program, patience) =
            (Arc::clone(rows), Arc::clone(board), self.program.clone(), self.patience);
        let work = move || {
            let done = match patience {
                None => {
                    hand::list(&*rows, &board);
                    Ok(())
                }
                Some(patience) => Hand::new(&*rows, &board, &program, patience).work(),
            };
            board.leave(done.err());
        };
        thread::Builder::new().stack_size(STACK).spawn(work).map(|_| ())
    }
}

/// Starts as many threads as can be started. An error where none can; one that is missing has left the board.
fn start<T>(count: usize, board: &Board<T>, spawn: impl Fn() -> io::Result<()>) -> Result<()> {
    for number in 0..count {
        match spawn() {
            Err(error) if number == 0 => return Err(Trouble::with("no thread can be started", error)),
            Err(_) => {
                (number..count).for_each(|_| board.leave(None));
                break;
            }
            Ok(()) => {}
        }
    }
    Ok(())
}

#[cfg(test)]
mod tests {
    use super::*;
    use std::cell::Cell;

    /// Where only some threads can be started these do the work, and where none can that is said.
    #[test]
    fn fewer_threads_than_wanted() {
        for able in 0..3 {
            let board: Board<()> = Board::new(9, 2);
            let started = Cell::new(0);
            let spawn = || {
                started.set(started.get() + 1);
                if started.get() <= able {
                    Ok(())
                } else {
                    Err(io::Error::new(io::ErrorKind::WouldBlock, "too many"))
                }
            };
            let done = start(2, &board, spawn).map_err(|trouble| trouble.to_string());
            let none = Err(String::from("no thread can be started: too many"));
            assert_eq!(done, if able == 0 { none } else { Ok(()) });
            (0..able).for_each(|_| assert!(!board.fetch(Duration::ZERO).last));
            (0..able).for_each(|_| board.leave(None));
            assert_eq!(board.fetch(Duration::ZERO).last, able > 0);
        }
    }
}
