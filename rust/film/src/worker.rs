//! Worker processes. Listing cannot be interrupted from within, so a row that may be given up is listed in a process of
//! its own, which is killed when patience ends.
//!
//! A question is the length of the message (2 bytes), the number of bits (2 bytes), the message and the packed row. A worker
//! may be asked many at a time; it answers each, in their order. An answer is the refusal, the count and the length of
//! the rows (4 bytes each), the nanoseconds that it took (8 bytes), and the rows. Numbers stand high byte first.

use std::borrow::Cow;
use std::fs::File;
use std::io::{self, BufReader, ErrorKind, Read, Write};
use std::os::unix::io::{AsFd, OwnedFd};
use std::os::unix::net::UnixStream;
use std::path::Path;
use std::process::{self, Child, Command};
use std::sync::mpsc::{self, TryRecvError};
use std::sync::{Arc, Condvar, Mutex, PoisonError};
use std::thread;
use std::time::Duration;

use container::bytes_for;
use dairyhour::LONGEST_LIST;

use crate::lister::{list_here, Answer, Outcome, Task};

/// The bytes of an answer in front of its rows.
const ANSWER_HEAD: usize = 20;

/// How long answers are gathered before they are written, while the worker is at the next row.
const GATHER: Duration = Duration::from_millis(1);

/// A worker process that waits for questions.
pub struct Worker {
    child: Child,
    line: UnixStream,
    /// What arrived and is not yet taken as an answer.
    arrived: Vec<u8>,
}

/// The worker ended, or says what is no answer.
#[derive(Debug)]
pub struct Ended;

impl Worker {
    /// Starts a program as a worker, whose answers are waited for this long at a time.
    pub fn start(program: &Path, wait: Duration) -> io::Result<Worker> {
        let (line, end) = UnixStream::pair()?;
        line.set_read_timeout(Some(wait))?;
        let (input, output) = (OwnedFd::from(end.try_clone()?), OwnedFd::from(end));
        let child = Command::new(program).arg("worker").stdin(input).stdout(output).spawn()?;
        Ok(Worker { child, line, arrived: Vec::new() })
    }

    /// Asks questions, as [`write_question`] wrote them.
    pub fn ask(&mut self, questions: &[u8]) -> Result<(), Ended> {
        self.line.write_all(questions).map_err(|_| Ended)
    }

    /// The answers that have come, at most so many; waits for the first. None where none came in time.
    pub fn answers(&mut self, most: usize) -> Result<Vec<Outcome>, Ended> {
        let found = self.parse(most)?;
        if !found.is_empty() {
            return Ok(found);
        }
        let mut bytes = [0; 1 << 16];
        match self.line.read(&mut bytes) {
            Ok(0) => Err(Ended),
            Ok(count) => {
                self.arrived.extend(&bytes[..count]);
                self.parse(most)
            }
            Err(error) if matches!(error.kind(), ErrorKind::WouldBlock | ErrorKind::TimedOut) => Ok(Vec::new()),
            Err(error) if error.kind() == ErrorKind::Interrupted => Ok(Vec::new()),
            Err(_) => Err(Ended),
        }
    }

    /// Takes whole answers from what arrived.
    fn parse(&mut self, most: usize) -> Result<Vec<Outcome>, Ended> {
        let mut found = Vec::new();
        let mut rest = &self.arrived[..];
        while found.len() < most {
            match read_answer(rest)? {
                Some((outcome, behind)) => {
                    found.push(outcome);
                    rest = behind;
                }
                None => break,
            }
        }
        let taken = self.arrived.len() - rest.len();
        self.arrived.drain(..taken);
        Ok(found)
    }
}

/// A worker that is dropped is killed, whatever it is at.
impl Drop for Worker {
    fn drop(&mut self) {
        // It fails only where the worker has ended by itself.
        let _ = self.child.kill();
        let _ = self.child.wait();
    }
}

/// Answers questions until standard input ends, and then ends at once, also in the middle of a row: so a worker never
/// outlives the process that started it. An interrupt from the terminal is left to that process.
pub fn serve() -> io::Result<()> {
    signal_hook::flag::register(signal_hook::consts::SIGINT, Arc::default())?;
    let (send, questions) = mpsc::channel();
    thread::Builder::new().spawn(move || {
        let mut input = BufReader::with_capacity(1 << 16, io::stdin());
        while let Ok(question) = read_question(&mut input) {
            if send.send(question).is_err() {
                break;
            }
        }
        process::exit(0);
    })?;
    let gathered = Arc::new(Gathered::new(io::stdout().as_fd().try_clone_to_owned()?));
    let writer = Arc::clone(&gathered);
    thread::Builder::new().spawn(move || writer.write_on())?;
    let mut list = vec![0; LONGEST_LIST];
    loop {
        let question = match questions.try_recv() {
            Ok(question) => question,
            Err(TryRecvError::Disconnected) => return Ok(()),
            Err(TryRecvError::Empty) => {
                gathered.write()?;
                match questions.recv() {
                    Ok(question) => question,
                    Err(_) => return Ok(()),
                }
            }
        };
        gathered.add(&list_here(&question, &mut list));
    }
}

/// Answers that were not written yet. They are written when there is no further question, and else, by a thread of their own,
/// soon: so a row that takes long holds no answer back, and quick rows share a write.
struct Gathered {
    answers: Mutex<Vec<u8>>,
    some: Condvar,
    output: File,
}

impl Gathered {
    fn new(output: OwnedFd) -> Gathered {
        Gathered { answers: Mutex::default(), some: Condvar::new(), output: File::from(output) }
    }

    fn add(&self, outcome: &Outcome) {
        let mut answers = self.answers.lock().unwrap_or_else(PoisonError::into_inner);
        let first = answers.is_empty();
        write_answer(&mut answers, outcome);
        if first {
            self.some.notify_one();
        }
    }

    /// Writes what was gathered. The lock is held throughout, so that answers keep their order.
    fn write(&self) -> io::Result<()> {
        let mut answers = self.answers.lock().unwrap_or_else(PoisonError::into_inner);
        (&self.output).write_all(&answers)?;
        answers.clear();
        Ok(())
    }

    /// Writes what is gathered as long as somebody reads it.
    fn write_on(&self) {
        loop {
            let mut answers = self.answers.lock().unwrap_or_else(PoisonError::into_inner);
            while answers.is_empty() {
                answers = self.some.wait(answers).unwrap_or_else(PoisonError::into_inner);
            }
            std::mem::drop(answers);
            thread::sleep(GATHER);
            if self.write().is_err() {
                process::exit(2);
            }
        }
    }
}

/// Appends a question.
pub fn write_question(to: &mut Vec<u8>, task: &Task<'_>) {
    to.extend((task.message.len() as u16).to_be_bytes());
    to.extend(task.bits.to_be_bytes());
    to.extend(&task.message[..]);
    to.extend(&task.row[..]);
}

fn read_question(from: &mut impl Read) -> io::Result<Task<'static>> {
    let mut head = [0; 4];
    from.read_exact(&mut head)?;
    let mut message = vec![0; usize::from(u16::from_be_bytes([head[0], head[1]]))];
    let bits = u16::from_be_bytes([head[2], head[3]]);
    let mut row = vec![0; bytes_for(usize::from(bits))];
    from.read_exact(&mut message)?;
    from.read_exact(&mut row)?;
    Ok(Task { message: Cow::Owned(message), bits, row: Cow::Owned(row) })
}

/// Appends an answer; a worker always has one.
fn write_answer(to: &mut Vec<u8>, outcome: &Outcome) {
    if let Ok(answer) = &outcome.answer {
        for number in [answer.refusal, answer.count as u32, answer.rows.len() as u32] {
            to.extend(number.to_be_bytes());
        }
        to.extend(((outcome.seconds * 1e9) as u64).to_be_bytes());
        to.extend(&answer.rows);
    }
}

/// The answer at the start of these bytes and what stands behind it, where all of it is there.
fn read_answer(bytes: &[u8]) -> Result<Option<(Outcome, &[u8])>, Ended> {
    if bytes.len() < ANSWER_HEAD {
        return Ok(None);
    }
    let (head, rest) = bytes.split_at(ANSWER_HEAD);
    let number = |place: usize| head[place..place + 4].iter().fold(0, |high, byte| high << 8 | u32::from(*byte));
    let (refusal, count, length) = (number(0), number(4) as usize, number(8) as usize);
    if length > LONGEST_LIST {
        return Err(Ended);
    }
    if rest.len() < length {
        return Ok(None);
    }
    let seconds = (f64::from(number(12)) * 2_f64.powi(32) + f64::from(number(16))) * 1e-9;
    let (rows, behind) = rest.split_at(length);
    Ok(Some((Outcome { answer: Ok(Answer { refusal, count, rows: rows.to_vec() }), seconds }, behind)))
}

#[cfg(test)]
mod tests {
    use super::*;

    #[test]
    fn questions_and_answers_travel() {
        let task = Task { message: Cow::Borrowed(&[1, 2, 3]), bits: 9, row: Cow::Borrowed(&[4, 0x80]) };
        let mut line = Vec::new();
        write_question(&mut line, &task);
        let question = read_question(&mut &line[..]).unwrap();
        assert_eq!((question.message, question.bits, question.row), (task.message, task.bits, task.row));
        assert!(read_question(&mut &line[1..]).is_err());

        let outcome = Outcome { answer: Ok(Answer { refusal: 9, count: 0, rows: vec![5; 300] }), seconds: 5000.25 };
        let mut line = Vec::new();
        write_answer(&mut line, &outcome);
        assert!((0..line.len()).all(|length| read_answer(&line[..length]).unwrap().is_none()));
        line.push(7);
        let (found, behind) = read_answer(&line).unwrap().unwrap();
        assert_eq!((found.answer, found.seconds, behind), (outcome.answer, outcome.seconds, &[7][..]));
        line[8] = 1;
        assert!(read_answer(&line).is_err(), "a list longer than any");
    }
}
