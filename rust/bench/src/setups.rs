//! The source's Table II: how long lists are for its first five setups, by the library and by its steps in plain Rust.
//!
//! "In each trial, the sequence X and the locations of the k deletions were chosen independently and uniformly at
//! random." The library and the steps get the same cases; the steps are fewer where they are slower.

use std::path::PathBuf;
use std::time::{Duration, Instant};

use bench::results::{Record, Setup, Store};
use dairyhour::{Refusal, LONGEST_LIST};
use reference::bits::bytes_for;
use reference::samples::{Kind, Losses};
use reference::{steps, Layout};

use crate::cases::{Kinds, Place, Rows};
use crate::peer;
use crate::words::pairs;

pub const USAGE: &str = "\
bench setups [WORD=VALUE]...
  trials=1000000   lists of each setup, if there is time
  minutes=10       time for all
  out=FOLDER       where setups.tsv is written; nowhere if not given";

/// A setup of the source's Table I with its line of Table II.
pub struct Published {
    pub layout: Layout,
    pub k: usize,
    /// The average list, the largest, and how many of a million lists are longer than one.
    pub average: &'static str,
    pub largest: usize,
    pub longer: usize,
}

const fn published(layout: [usize; 4], k: usize, average: &'static str, largest: usize, longer: usize) -> Published {
    let [l1, l2, nc, r] = layout;
    Published { layout: Layout { l1, l2, nc, r }, k, average, largest, longer }
}

/// The trials of each setup in the source.
pub const PUBLISHED_TRIALS: usize = 1_000_000;

pub const SETUPS: [Published; 5] = [
    published([5, 3, 4, 1], 3, "1.003", 3, 3256),
    published([5, 3, 4, 2], 3, "1.000", 2, 25),
    published([5, 3, 4, 3], 3, "1", 1, 0),
    published([5, 3, 4, 4], 4, "1", 1, 0),
    published([9, 7, 6, 7], 7, "1", 1, 0),
];

struct Choice {
    trials: usize,
    minutes: f64,
    out: Option<PathBuf>,
}

fn choice(words: &[String]) -> Option<Choice> {
    let mut choice = Choice { trials: PUBLISHED_TRIALS, minutes: 10.0, out: None };
    for (name, text) in pairs(words)? {
        match name {
            "trials" => choice.trials = text.parse().ok().filter(|trials| *trials > 0)?,
            "minutes" => choice.minutes = text.parse().ok().filter(|minutes| (0.0..1e6).contains(minutes))?,
            "out" => choice.out = Some(PathBuf::from(text)),
            _ => return None,
        }
    }
    Some(choice)
}

/// Makes the table. Answers what went wrong.
pub fn run(words: &[String]) -> Result<(), String> {
    let choice = choice(words).ok_or_else(|| format!("usage: {USAGE}"))?;
    let mut store = choice.out.as_deref().map(Store::new::<Setup>).transpose().map_err(|error| error.to_string())?;
    println!("{}", Setup::HEAD.join("\t"));
    let share = Duration::from_secs_f64(choice.minutes * 60.0 / (2 * SETUPS.len()) as f64);
    for number in 1..=SETUPS.len() {
        for setup in list_setup(number, choice.trials, share)? {
            println!("{}", setup.fields().join("\t"));
            store.as_mut().map_or(Ok(()), |store| store.add(&setup)).map_err(|error| error.to_string())?;
        }
    }
    Ok(())
}

/// What one lister has made of a setup so far.
struct Tally {
    setup: Setup,
    spent: Duration,
}

impl Tally {
    fn new(setup: usize, lister: &str) -> Tally {
        let setup = Setup { setup, lister: lister.into(), trials: 0, rows: 0, largest: 0, longer: 0, time: 0.0 };
        Tally { setup, spent: Duration::ZERO }
    }

    /// Times a list and counts its rows.
    fn list(&mut self, call: impl FnOnce() -> Result<usize, u32>) -> Result<usize, String> {
        let start = Instant::now();
        let answer = call();
        self.spent += start.elapsed();
        let count = answer.map_err(|number| format!("setup {}: refused by {number}", self.setup.setup))?;
        self.setup.trials += 1;
        self.setup.rows += count;
        self.setup.largest = self.setup.largest.max(count);
        self.setup.longer += usize::from(count > 1);
        self.setup.time = self.spent.as_secs_f64() * 1e6 / self.setup.trials as f64;
        Ok(count)
    }
}

/// Lists a setup by both, each for about this time.
fn list_setup(number: usize, trials: usize, share: Duration) -> Result<[Setup; 2], String> {
    let Published { layout, k, .. } = SETUPS[number - 1];
    let (rows, losses) = (("random", Rows::Made(Kind::Random)), ("uniform", Losses::Uniform));
    let kinds = Kinds { place: Place::One(layout), rows, losses, k };
    let (mut library, mut peer) = (Tally::new(number, "library"), Tally::new(number, "steps"));
    let (mut ours, mut theirs) = (vec![0; LONGEST_LIST], vec![0; LONGEST_LIST]);
    let begin = Instant::now();
    for trial in 0..trials {
        // What it takes to make the cases counts as well.
        if trial > 0 && begin.elapsed() >= 2 * share {
            break;
        }
        let task = kinds.case(trial).short;
        let listed =
            library.list(|| dairyhour::list(&task.message, &task.row, task.m, &mut ours).map_err(Refusal::number))?;
        if peer.spent < share {
            let other = peer.list(|| steps::list(peer::write, &task.message, &task.row, task.m, &mut theirs))?;
            let bytes = listed * bytes_for(layout.row_bits());
            if listed != other || ours[..bytes] != theirs[..bytes] {
                return Err(format!("setup {number}, trial {trial}: the listers disagree"));
            }
        }
    }
    Ok([library.setup, peer.setup])
}
