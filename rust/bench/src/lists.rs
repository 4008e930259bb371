//! Times listing, beside the source's steps 1 to 6 and beside writing, on rows and losses of many kinds.
//!
//! Each list is made in a child process; one that passes the limit is given up and counted. Cells are timed in the
//! order of their losses, those that a target speaks of first. Where no list of a cell came in time, cells of the same
//! kind with more losses are left out, and so is the peer where its middle list did not.

use std::collections::HashSet;
use std::io;
use std::path::PathBuf;
use std::time::{Duration, Instant};

use bench::results::{Cell, Key, Record, Store, Time};
use bench::text;
use dairyhour::MOST_LOSSES;
use reference::samples::Losses;
use reference::Layout;

use crate::budget::Budget;
use crate::cases::{Case, Kinds, Place, Rows, LOSSES, ROWS};
use crate::targets;
use crate::words::{named, pairs, values};
use crate::worker::{Reply, Work, Worker};

pub const USAGE: &str = "\
bench list [WORD=VALUES]..., several values parted by commas
  layout=L1,L2,NC,R   may be given several times; layout=small is any layout of rows up to 60 bits
  rows=random,blank,ones,stripes2,stripes3,stripes4,stripes7,stripes8,track,tracks4,synthetic,film,neighbour
  losses=uniform,burst,runends,block
  k=0,1,2,4,8,12      at most 12
  trials=200   lists in each cell, if there is time (those of small layouts: four times as many)
  first=0      the first trial, to time one case again
  minutes=30   time for all; when it is spent, only cells that a target speaks of have one more trial each
  limit=5      seconds after which a list is given up
  peer=10      lists of the peer in each cell, if there is time; none with 0
  patience=1   seconds after which a list of the peer is given up
  out=FOLDER   where lists.tsv is written; nowhere if not given";

/// A cell that a target speaks of has more of the time than another.
const TARGET_WEIGHT: usize = 10;

/// Small layouts are many.
const SMALL_TRIALS: usize = 4;

/// What is timed.
struct Choice {
    places: Vec<Place>,
    rows: Vec<(&'static str, Rows)>,
    losses: Vec<(&'static str, Losses)>,
    ks: Option<Vec<usize>>,
    trials: usize,
    first: usize,
    minutes: f64,
    limit: Duration,
    peer: usize,
    patience: Duration,
    out: Option<PathBuf>,
}

impl Choice {
    fn all() -> Choice {
        Choice {
            places: Place::all(),
            rows: ROWS.to_vec(),
            losses: LOSSES.to_vec(),
            ks: None,
            trials: 200,
            first: 0,
            minutes: 30.0,
            limit: Duration::from_secs(5),
            peer: 10,
            patience: Duration::from_secs(1),
            out: None,
        }
    }

    /// The choice that the words make, or nothing if one of them is not understood or out of range.
    fn from_words(words: &[String]) -> Option<Choice> {
        let mut choice = Choice::all();
        let mut places = Vec::new();
        for (name, text) in pairs(words)? {
            match name {
                "layout" => places.push(place(text)?),
                "rows" => choice.rows = named(&ROWS, text)?,
                "losses" => choice.losses = named(&LOSSES, text)?,
                "k" => choice.ks = Some(values(text)?),
                "trials" => choice.trials = text.parse().ok()?,
                "first" => choice.first = text.parse().ok()?,
                "minutes" => choice.minutes = text.parse().ok().filter(|minutes| (0.0..1e6).contains(minutes))?,
                "limit" => choice.limit = Duration::from_secs(text.parse().ok()?),
                "peer" => choice.peer = text.parse().ok()?,
                "patience" => choice.patience = Duration::from_secs(text.parse().ok()?),
                "out" => choice.out = Some(PathBuf::from(text)),
                _ => return None,
            }
        }
        if !places.is_empty() {
            choice.places = places;
        }
        let is_fit = choice.ks.iter().flatten().all(|k| *k <= MOST_LOSSES) && choice.trials > 0;
        is_fit.then_some(choice)
    }

    /// All cells, those with few losses first.
    fn cells(&self) -> Vec<Kinds> {
        let mut cells = Vec::new();
        for place in &self.places {
            let ks = self.ks.clone().unwrap_or_else(|| place.losses());
            for k in ks.into_iter().filter(|k| *k <= place.most_losses()) {
                cells.extend(self.cells_of(*place, k));
            }
        }
        cells.sort_by_key(|cell| (cell.k, !targets::speak_of(&cell.key())));
        cells
    }

    fn cells_of(&self, place: Place, k: usize) -> Vec<Kinds> {
        let of = |rows| self.losses.iter().map(move |losses| Kinds { place, rows, losses: *losses, k });
        let mut cells: Vec<Kinds> = self.rows.iter().copied().flat_map(of).collect();
        let first = self.losses[0].0;
        cells.retain(|cell| cell.losses.0 == first || !cell.is_one_of_losses());
        cells
    }

    fn trials_of(&self, place: Place) -> usize {
        if place == Place::Small {
            self.trials * SMALL_TRIALS
        } else {
            self.trials
        }
    }
}

fn place(text: &str) -> Option<Place> {
    if text == "small" {
        return Some(Place::Small);
    }
    match values(text)?[..] {
        [l1, l2, nc, r] => Some(Layout::new(l1, l2, nc, r)).filter(Layout::is_legal).map(Place::One),
        _ => None,
    }
}

fn weight(key: &Key) -> usize {
    if targets::speak_of(key) {
        TARGET_WEIGHT
    } else {
        1
    }
}

/// What one of them took in a cell, trial by trial; nothing where it passed the limit.
#[derive(Default)]
struct Taken {
    times: Vec<Option<Duration>>,
}

impl Taken {
    fn add(&mut self, reply: Option<Reply>) {
        self.times.push(reply.map(|reply| reply.time));
    }

    fn over(&self) -> usize {
        self.times.iter().filter(|time| time.is_none()).count()
    }

    /// The time that so many of a hundred do not pass. A list that was given up took longer than any other.
    fn at(&self, percent: usize) -> Time {
        let mut times: Vec<Duration> = self.times.iter().flatten().copied().collect();
        times.sort_unstable();
        let rank = (self.times.len() * percent + 99) / 100;
        match times.get(rank.max(1) - 1) {
            _ if self.times.is_empty() => Time::Unknown,
            Some(time) => Time::Took(time.as_secs_f64() * 1e6),
            None => Time::Over,
        }
    }

    /// The first few trials.
    fn head(&self, count: usize) -> Taken {
        Taken { times: self.times.iter().copied().take(count).collect() }
    }
}

/// A cell that is being timed.
#[derive(Default)]
struct Timing {
    list: Taken,
    write: Taken,
    steps: Taken,
    largest: usize,
    slowest: Option<(Duration, String)>,
    peer_time: Duration,
}

impl Timing {
    /// The most rows on a list, and the case that took longest. One that was given up took at least the limit.
    fn note(&mut self, case: &Case, reply: Option<Reply>) {
        let time = reply.map_or(Duration::MAX, |reply| reply.time);
        if let Some(Ok(count)) = reply.map(|reply| reply.answer) {
            self.largest = self.largest.max(count);
        }
        if self.slowest.as_ref().map_or(true, |(slowest, _)| *slowest < time) {
            self.slowest = Some((time, case.name.clone()));
        }
    }

    /// How many times as long the steps took at p50, on the trials that both made.
    fn ratio(&self) -> Option<f64> {
        let library = self.list.head(self.steps.times.len()).at(50).took()?;
        Some(self.steps.at(50).took()? / library)
    }

    /// The cell of these trials; where there were none since the listers passed the limit with fewer losses, their
    /// times are over it.
    fn cell(&self, key: Key, library_is_over: bool, peer_is_over: bool) -> Cell {
        let known = |is_over: bool, time: Time| if is_over { Time::Over } else { time };
        Cell {
            key,
            trials: self.list.times.len(),
            over: self.list.over(),
            p50: known(library_is_over, self.list.at(50)),
            p99: known(library_is_over, self.list.at(99)),
            worst: known(library_is_over, self.list.at(100)),
            write: self.write.at(50),
            steps_trials: self.steps.times.len(),
            steps_p50: known(peer_is_over, self.steps.at(50)),
            ratio: self.ratio(),
            largest: self.largest,
            slowest: self.slowest.as_ref().map_or(String::from("-"), |(_, name)| name.clone()),
        }
    }
}

/// A run: its worker processes, and the kinds of cells in which nothing came in time.
struct Run<'a> {
    choice: &'a Choice,
    library: Worker,
    peer: Worker,
    library_over: HashSet<[String; 3]>,
    peer_over: HashSet<[String; 3]>,
}

/// A cell's kind, whatever its losses' number.
fn kind(key: &Key) -> [String; 3] {
    [key.layout.clone(), key.rows.clone(), key.losses.clone()]
}

impl Run<'_> {
    fn new(choice: &Choice) -> Run<'_> {
        Run {
            choice,
            library: Worker::default(),
            peer: Worker::default(),
            library_over: HashSet::new(),
            peer_over: HashSet::new(),
        }
    }

    /// Times one cell for about this time.
    fn time(&mut self, kinds: &Kinds, share: Duration) -> io::Result<Cell> {
        let key = kinds.key();
        let mut timing = Timing::default();
        if !self.library_over.contains(&kind(&key)) {
            self.trials(kinds, &key, &mut timing, share)?;
        }
        let library_is_over = self.library_over.contains(&kind(&key));
        let peer_is_over = self.peer_over.contains(&kind(&key));
        Ok(timing.cell(key, library_is_over, peer_is_over))
    }

    /// As many trials as there is time for. Notes whether none came in time.
    fn trials(&mut self, kinds: &Kinds, key: &Key, timing: &mut Timing, share: Duration) -> io::Result<()> {
        let begin = Instant::now();
        let least = usize::from(targets::speak_of(key));
        for trial in 0..self.choice.trials_of(kinds.place) {
            if trial >= least && begin.elapsed() >= share {
                break;
            }
            let case = kinds.case(self.choice.first + trial);
            self.trial(key, &case, timing, share / 2)?;
        }
        if timing.list.at(0) == Time::Over {
            self.library_over.insert(kind(key));
        }
        Ok(())
    }

    /// One case: the library lists and writes, and the peer lists if it still takes part.
    fn trial(&mut self, key: &Key, case: &Case, timing: &mut Timing, peer_share: Duration) -> io::Result<()> {
        let listed = self.library.ask(Work::List, &case.short, self.choice.limit)?;
        timing.list.add(listed);
        timing.note(case, listed);
        timing.write.add(self.library.ask(Work::Write, &case.whole, self.choice.limit)?);
        let made = timing.steps.times.len();
        let has_time = made == 0 || timing.peer_time < peer_share;
        if made < self.choice.peer && has_time && !self.peer_over.contains(&kind(key)) {
            let start = Instant::now();
            let steps = self.peer.ask(Work::Steps, &case.short, self.choice.patience)?;
            timing.peer_time += start.elapsed();
            timing.steps.add(steps);
            compare(listed, steps, key, case)?;
            if timing.steps.at(50) == Time::Over {
                self.peer_over.insert(kind(key));
            }
        }
        Ok(())
    }
}

/// Two lists of one case that were made in time must be the same.
fn compare(library: Option<Reply>, steps: Option<Reply>, key: &Key, case: &Case) -> io::Result<()> {
    match (library, steps) {
        (Some(a), Some(b)) if a.answer != b.answer || a.mark != b.mark => {
            let text = format!("{key:?}, {}: the listers disagree, {:?} and {:?}", case.name, a.answer, b.answer);
            Err(io::Error::new(io::ErrorKind::InvalidData, text))
        }
        _ => Ok(()),
    }
}

/// Says how far the run is, but not more often than every few seconds.
struct Progress {
    cells: usize,
    done: usize,
    said: Instant,
}

impl Progress {
    const PAUSE: Duration = Duration::from_secs(5);

    fn new(cells: usize) -> Progress {
        Progress { cells, done: 0, said: Instant::now() }
    }

    fn step(&mut self, cell: &Cell, budget: &Budget) {
        self.done += 1;
        if self.said.elapsed() < Progress::PAUSE && self.done < self.cells {
            return;
        }
        self.said = Instant::now();
        let Key { layout, rows, losses, k } = &cell.key;
        eprintln!(
            "{} of {} cells, {}: {layout}, {rows}, {losses}, k = {k}: {}, p50 {}, worst {}",
            self.done,
            self.cells,
            budget.spent(),
            text::trials(cell.trials),
            text::time(cell.p50),
            text::time(cell.worst)
        );
    }
}

fn time_all(choice: &Choice) -> io::Result<()> {
    let cells = choice.cells();
    let weights = cells.iter().map(|kinds| weight(&kinds.key())).sum();
    let mut budget = Budget::new(Duration::from_secs_f64(choice.minutes * 60.0), weights);
    let mut store = choice.out.as_deref().map(Store::new::<Cell>).transpose()?;
    let mut progress = Progress::new(cells.len());
    let mut run = Run::new(choice);
    for kinds in &cells {
        let share = budget.share(weight(&kinds.key()));
        let cell = run.time(kinds, share)?;
        match &mut store {
            Some(store) => store.add(&cell)?,
            None => println!("{}", cell.fields().join("\t")),
        }
        progress.step(&cell, &budget);
    }
    Ok(())
}

/// Times what the words choose. Answers what went wrong.
pub fn run(words: &[String]) -> Result<(), String> {
    let choice = Choice::from_words(words).ok_or_else(|| format!("usage: {USAGE}"))?;
    if choice.out.is_none() {
        println!("{}", Cell::HEAD.join("\t"));
    }
    time_all(&choice).map_err(|error| error.to_string())
}

#[cfg(test)]
mod tests {
    use super::*;

    fn taken(times: &[Option<u64>]) -> Taken {
        Taken { times: times.iter().map(|time| time.map(Duration::from_micros)).collect() }
    }

    #[test]
    fn what_was_given_up_is_slowest() {
        let taken = taken(&[Some(3), None, Some(1), Some(2)]);
        assert_eq!(taken.over(), 1);
        assert_eq!(taken.at(0), Time::Took(1.0));
        assert_eq!(taken.at(50), Time::Took(2.0));
        assert_eq!(taken.at(99), Time::Over);
        assert_eq!(taken.head(1).at(100), Time::Took(3.0));
        assert_eq!(taken.head(0).at(50), Time::Unknown);
    }

    #[test]
    fn cells_that_are_the_same_come_once() {
        let cells = Choice::all().cells();
        let count = |layout: &str, rows: &str, k: usize| {
            let is_it = |key: &Key| key.layout == layout && key.rows == rows && key.k == k;
            cells.iter().filter(|cell| is_it(&cell.key())).count()
        };
        assert_eq!(count("15 17 8 16", "film", 0), 1);
        assert_eq!(count("15 17 8 16", "film", 8), 4);
        assert_eq!(count("15 17 8 16", "blank", 8), 1);
        assert_eq!(count("n <= 60", "film", 8), 1);
        assert_eq!(count("9 7 6 7", "random", 7), 4);
    }
}
