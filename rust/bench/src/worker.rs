//! Lists in a child process, which is ended when one takes too long.

use std::io::{self, BufRead, BufReader, Write};
use std::process::{Child, ChildStdin, Command, Stdio};
use std::sync::mpsc::{self, Receiver, RecvTimeoutError};
use std::time::{Duration, Instant};
use std::{env, thread};

use dairyhour::{Refusal, LONGEST_LIST};
use reference::message::read_head;
use reference::samples::{Kind, Losses};
use reference::steps;

use crate::cases::{Kinds, Place, Rows};
use crate::peer;

/// The word by which this program, started again, knows that it is to do what it is told.
pub const WORD: &str = "list-worker";

/// A child's first line.
const READY: &str = "ready";

/// What is done with a task.
#[derive(Clone, Copy, Debug, PartialEq, Eq)]
pub enum Work {
    /// The library lists.
    List,
    /// The source's steps list.
    Steps,
    /// The library writes the message of the row, in the layout of the message that is given.
    Write,
}

impl Work {
    const ALL: [Work; 3] = [Work::List, Work::Steps, Work::Write];

    fn name(self) -> &'static str {
        match self {
            Work::List => "list",
            Work::Steps => "steps",
            Work::Write => "write",
        }
    }
}

/// A message, and the bits of a row.
pub struct Task {
    pub message: Vec<u8>,
    pub row: Vec<u8>,
    pub m: usize,
}

/// How long it took, and what came of it: the answer, and a number made of the lent slice's bytes.
#[derive(Clone, Copy, Debug)]
pub struct Reply {
    pub time: Duration,
    pub answer: Result<usize, u32>,
    pub mark: u64,
}

/// What takes less than this is done several times, and the least time counts: whatever else the machine does in
/// between only adds to it.
const QUICK: Duration = Duration::from_millis(20);
const TIMES: usize = 3;

/// Does a task into a slice that was cleared.
fn perform(work: Work, task: &Task, out: &mut [u8]) -> Reply {
    let Task { message, row, m } = task;
    let layout = read_head(message).map(|(layout, _)| layout);
    out.fill(0);
    let (time, answer) = match work {
        Work::List => least(|| dairyhour::list(message, row, *m, out).map_err(Refusal::number)),
        Work::Steps => least(|| steps::list(peer::write, message, row, *m, out)),
        Work::Write => least(|| {
            let reference::Layout { l1, l2, nc, r } = layout?;
            dairyhour::write(dairyhour::Layout { l1, l2, nc, r }, row, out).map_err(Refusal::number)
        }),
    };
    Reply { time, answer, mark: mark(out) }
}

/// The least time that a call took, and what it answered.
fn least(mut call: impl FnMut() -> Result<usize, u32>) -> (Duration, Result<usize, u32>) {
    let mut least = Duration::MAX;
    let begin = Instant::now();
    for turn in 1.. {
        let start = Instant::now();
        let answer = call();
        least = least.min(start.elapsed());
        if turn == TIMES || begin.elapsed() > QUICK {
            return (least, answer);
        }
    }
    unreachable!("the turns end at {TIMES}")
}

/// A number that two different lists hardly have in common (FNV-1a).
fn mark(bytes: &[u8]) -> u64 {
    bytes.iter().fold(0xCBF2_9CE4_8422_2325, |mark, byte| (mark ^ u64::from(*byte)).wrapping_mul(0x0000_0100_0000_01B3))
}

/// The child's side: a line for each task, and a line for each reply.
pub fn serve() {
    let mut out = vec![0; LONGEST_LIST];
    warm(&mut out);
    println!("{READY}");
    for line in io::stdin().lock().lines() {
        let reply = line.ok().and_then(|line| reply_to(&line, &mut out));
        match reply {
            Some(reply) => println!("{reply}"),
            None => return,
        }
    }
}

/// Lists a few bits short of random rows, so that what is timed does not pay for the child's start.
fn warm(out: &mut [u8]) {
    let (rows, losses) = (("random", Rows::Made(Kind::Random)), ("uniform", Losses::Uniform));
    for place in Place::all() {
        let case = Kinds { place, rows, losses, k: 2 }.case(0);
        for work in Work::ALL {
            perform(work, &case.whole, out);
        }
        perform(Work::List, &case.short, out);
    }
}

fn reply_to(line: &str, out: &mut [u8]) -> Option<String> {
    let mut words = line.split(' ');
    let name = words.next()?;
    let work = Work::ALL.into_iter().find(|work| work.name() == name)?;
    let m = words.next()?.parse().ok()?;
    let task = Task { m, message: bytes(words.next()?)?, row: bytes(words.next()?)? };
    let Reply { time, answer, mark } = perform(work, &task, out);
    let (refusal, count) = answer.map_or_else(|number| (number, 0), |count| (0, count));
    Some(format!("{} {refusal} {count} {mark}", time.as_nanos()))
}

/// Bytes in hexadecimal behind an x, which stands there so that no bytes are a word as well.
fn word(bytes: &[u8]) -> String {
    bytes.iter().fold(String::from("x"), |word, byte| word + &format!("{byte:02x}"))
}

fn bytes(word: &str) -> Option<Vec<u8>> {
    let digits = word.strip_prefix('x')?;
    (0..digits.len() / 2).map(|i| u8::from_str_radix(digits.get(2 * i..2 * i + 2)?, 16).ok()).collect()
}

/// The parent's side: a child that is started when it is needed.
#[derive(Default)]
pub struct Worker {
    child: Option<Running>,
}

struct Running {
    child: Child,
    tasks: ChildStdin,
    replies: Receiver<String>,
}

impl Worker {
    /// The reply, or nothing if there is none after this time: the child is then ended.
    pub fn ask(&mut self, work: Work, task: &Task, limit: Duration) -> io::Result<Option<Reply>> {
        let running = match self.child.take() {
            Some(running) => running,
            None => Running::start()?,
        };
        let line = format!("{} {} {} {}", work.name(), task.m, word(&task.message), word(&task.row));
        let running = self.child.insert(running);
        writeln!(running.tasks, "{line}")?;
        match running.replies.recv_timeout(limit + QUICK) {
            Ok(line) => {
                let reply = parse(&line).ok_or_else(|| broken("a child's reply is not understood"))?;
                Ok(Some(reply).filter(|reply| reply.time <= limit))
            }
            Err(RecvTimeoutError::Timeout) => {
                self.end();
                Ok(None)
            }
            Err(RecvTimeoutError::Disconnected) => Err(broken(&format!("a child ended at: {line}"))),
        }
    }

    fn end(&mut self) {
        if let Some(mut running) = self.child.take() {
            // A child that has ended already is no fault.
            let _ = running.child.kill();
            let _ = running.child.wait();
        }
    }
}

impl Drop for Worker {
    fn drop(&mut self) {
        self.end();
    }
}

impl Running {
    /// A child that is ready: what it was warmed with is not part of the first task's time.
    fn start() -> io::Result<Running> {
        let mut child =
            Command::new(env::current_exe()?).arg(WORD).stdin(Stdio::piped()).stdout(Stdio::piped()).spawn()?;
        let tasks = child.stdin.take().ok_or_else(|| broken("a child without pipes"))?;
        let output = child.stdout.take().ok_or_else(|| broken("a child without pipes"))?;
        let (sender, replies) = mpsc::channel();
        thread::spawn(move || {
            for line in BufReader::new(output).lines().map_while(Result::ok) {
                if sender.send(line).is_err() {
                    return;
                }
            }
        });
        match replies.recv() {
            Ok(line) if line == READY => Ok(Running { child, tasks, replies }),
            _ => Err(broken("a child did not start")),
        }
    }
}

fn broken(text: &str) -> io::Error {
    io::Error::new(io::ErrorKind::BrokenPipe, text)
}

fn parse(line: &str) -> Option<Reply> {
    let numbers: Vec<u64> = line.split(' ').map(|word| word.parse().ok()).collect::<Option<_>>()?;
    match numbers[..] {
        [time, refusal, count, mark] => {
            let answer = if refusal == 0 { Ok(count as usize) } else { Err(refusal as u32) };
            Some(Reply { time: Duration::from_nanos(time), answer, mark })
        }
        _ => None,
    }
}
