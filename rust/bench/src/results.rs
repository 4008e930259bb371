//! The stored figures: files of lines with fields between tabs, the first of which names the fields.
//!
//! A run has a folder with four files: `machine.tsv`, `lists.tsv` (a line for each cell, [`Cell`]), `setups.tsv`
//! (Table II, [`Setup`]) and `calls.tsv` (writing, reading, mending, [`Call`]). A folder `again` in it may have one more `lists.tsv`, of
//! cells that were timed by themselves for more trials.

use std::fs::{self, File};
use std::io::{self, Write};
use std::path::Path;

/// A line of a file.
pub trait Record: Sized {
    /// The file's name, and its first line.
    const FILE: &'static str;
    const HEAD: &'static [&'static str];

    fn fields(&self) -> Vec<String>;
    fn from_fields(fields: &[&str]) -> Option<Self>;
}

/// A file that grows line by line, so that what was timed stands there when a run is ended.
pub struct Store {
    file: File,
}

impl Store {
    /// A new file of such records in a folder, which is made if need be.
    pub fn new<R: Record>(folder: &Path) -> io::Result<Store> {
        fs::create_dir_all(folder)?;
        let mut store = Store { file: File::create(folder.join(R::FILE))? };
        store.put(&R::HEAD.join("\t"))?;
        Ok(store)
    }

    pub fn add<R: Record>(&mut self, record: &R) -> io::Result<()> {
        self.put(&record.fields().join("\t"))
    }

    fn put(&mut self, line: &str) -> io::Result<()> {
        writeln!(self.file, "{line}")
    }
}

/// The records of a folder. A file that is not there has none; one that is not understood is a fault.
pub fn read<R: Record>(folder: &Path) -> io::Result<Vec<R>> {
    let path = folder.join(R::FILE);
    if !path.exists() {
        return Ok(Vec::new());
    }
    parse(&fs::read_to_string(&path)?).map_err(|line| {
        let text = format!("{}: line {line} is not understood", path.display());
        io::Error::new(io::ErrorKind::InvalidData, text)
    })
}

/// The records of a text, or the number of the first line that is none.
fn parse<R: Record>(text: &str) -> Result<Vec<R>, usize> {
    let mut lines = text.lines().enumerate();
    if lines.next().map_or(true, |(_, head)| head != R::HEAD.join("\t")) {
        return Err(1);
    }
    let record = |line: &str| R::from_fields(&line.split('\t').collect::<Vec<&str>>());
    lines.map(|(number, line)| record(line).ok_or(number + 1)).collect()
}

/// A time in microseconds.
#[derive(Clone, Copy, Debug, PartialEq)]
pub enum Time {
    Took(f64),
    /// It passed the limit.
    Over,
    /// There was no trial.
    Unknown,
}

impl Time {
    pub fn took(self) -> Option<f64> {
        match self {
            Time::Took(time) => Some(time),
            _ => None,
        }
    }

    fn field(self) -> String {
        match self {
            Time::Took(time) => format!("{time:.2}"),
            Time::Over => String::from("over"),
            Time::Unknown => String::from("-"),
        }
    }

    fn from_field(field: &str) -> Option<Time> {
        match field {
            "over" => Some(Time::Over),
            "-" => Some(Time::Unknown),
            number => number.parse().ok().map(Time::Took),
        }
    }
}

/// What a cell is about.
#[derive(Clone, Debug, PartialEq, Eq)]
pub struct Key {
    /// The four numbers of a layout, or [`SMALL`].
    pub layout: String,
    pub rows: String,
    pub losses: String,
    pub k: usize,
}

/// Stands for all layouts of rows up to 60 bits, each trial with another one.
pub const SMALL: &str = "n <= 60";

/// Lists of one kind. Times are those of the library but for the ones of `steps`, the peer.
#[derive(Clone, Debug, PartialEq)]
pub struct Cell {
    pub key: Key,
    /// How many lists were made, and how many of them were given up at the limit.
    pub trials: usize,
    pub over: usize,
    pub p50: Time,
    pub p99: Time,
    pub worst: Time,
    /// The p50 of writing the messages of the same rows.
    pub write: Time,
    pub steps_trials: usize,
    pub steps_p50: Time,
    /// How many times as long as the library the steps took at p50, on the trials that both made.
    pub ratio: Option<f64>,
    /// The most rows on a list.
    pub largest: usize,
    /// The case that took longest.
    pub slowest: String,
}

impl Cell {
    /// A cell of which nothing was timed.
    pub fn empty(key: Key) -> Cell {
        let [p50, p99, worst, write, steps_p50] = [Time::Unknown; 5];
        let slowest = String::from("-");
        let (trials, over, steps_trials, largest, ratio) = (0, 0, 0, 0, None);
        Cell { key, trials, over, p50, p99, worst, write, steps_trials, steps_p50, ratio, largest, slowest }
    }
}

impl Record for Cell {
    const FILE: &'static str = "lists.tsv";
    const HEAD: &'static [&'static str] = &[
        "layout",
        "rows",
        "losses",
        "k",
        "trials",
        "over",
        "p50",
        "p99",
        "worst",
        "write p50",
        "steps trials",
        "steps p50",
        "steps / library",
        "largest list",
        "slowest",
    ];

    fn fields(&self) -> Vec<String> {
        let Key { layout, rows, losses, k } = self.key.clone();
        let ratio = self.ratio.map_or(String::from("-"), |ratio| format!("{ratio:.2}"));
        let mut fields = vec![layout, rows, losses, k.to_string(), self.trials.to_string(), self.over.to_string()];
        fields.extend([self.p50, self.p99, self.worst, self.write].map(Time::field));
        fields.extend([self.steps_trials.to_string(), self.steps_p50.field(), ratio]);
        fields.extend([self.largest.to_string(), self.slowest.clone()]);
        fields
    }

    fn from_fields(fields: &[&str]) -> Option<Cell> {
        let [layout, rows, losses, k, trials, over, p50, p99, worst, write, steps, steps_p50, ratio, largest, slowest] =
            *<&[&str; 15]>::try_from(fields).ok()?;
        Some(Cell {
            key: Key { layout: layout.into(), rows: rows.into(), losses: losses.into(), k: k.parse().ok()? },
            trials: trials.parse().ok()?,
            over: over.parse().ok()?,
            p50: Time::from_field(p50)?,
            p99: Time::from_field(p99)?,
            worst: Time::from_field(worst)?,
            write: Time::from_field(write)?,
            steps_trials: steps.parse().ok()?,
            steps_p50: Time::from_field(steps_p50)?,
            ratio: ratio.parse().ok(),
            largest: largest.parse().ok()?,
            slowest: slowest.into(),
        })
    }
}

/// A setup of the source's Table II as one lister has it.
#[derive(Clone, Debug, PartialEq)]
pub struct Setup {
    pub setup: usize,
    pub lister: String,
    pub trials: usize,
    /// The rows on all lists together, the most on one, and how many lists have more than one.
    pub rows: usize,
    pub largest: usize,
    pub longer: usize,
    /// Microseconds for one list, on average.
    pub time: f64,
}

impl Record for Setup {
    const FILE: &'static str = "setups.tsv";
    const HEAD: &'static [&'static str] =
        &["setup", "lister", "trials", "rows", "largest list", "lists longer than one", "average time"];

    fn fields(&self) -> Vec<String> {
        let mut fields = vec![self.setup.to_string(), self.lister.clone()];
        fields.extend([self.trials, self.rows, self.largest, self.longer].map(|number| number.to_string()));
        fields.push(format!("{:.2}", self.time));
        fields
    }

    fn from_fields(fields: &[&str]) -> Option<Setup> {
        let [setup, lister, trials, rows, largest, longer, time] = *<&[&str; 7]>::try_from(fields).ok()?;
        Some(Setup {
            setup: setup.parse().ok()?,
            lister: lister.into(),
            trials: trials.parse().ok()?,
            rows: rows.parse().ok()?,
            largest: largest.parse().ok()?,
            longer: longer.parse().ok()?,
            time: time.parse().ok()?,
        })
    }
}

/// Calls of one operation by the library and by another implementation, in turns.
#[derive(Clone, Debug, PartialEq)]
pub struct Call {
    pub layout: String,
    pub operation: String,
    pub rows: String,
    /// Who else did it: the tuned peer, or the plain reference.
    pub other: String,
    /// Microseconds of the library for one call: on average over the middle one of many turns, and p50, p99 and worst of
    /// single calls; and the other's average and p50.
    pub times: [f64; 6],
}

impl Call {
    /// How many times as long as the other the library took.
    pub fn ratio(&self) -> f64 {
        self.times[0] / self.times[4]
    }
}

impl Record for Call {
    const FILE: &'static str = "calls.tsv";
    const HEAD: &'static [&'static str] =
        &["layout", "operation", "rows", "other", "average", "p50", "p99", "worst", "other's average", "other's p50"];

    fn fields(&self) -> Vec<String> {
        let names = [&self.layout, &self.operation, &self.rows, &self.other];
        names.into_iter().cloned().chain(self.times.map(|time| format!("{time:.4}"))).collect()
    }

    fn from_fields(fields: &[&str]) -> Option<Call> {
        let [layout, operation, rows, other, times @ ..] = *<&[&str; 10]>::try_from(fields).ok()?;
        let times: Vec<f64> = times.iter().map(|time| time.parse().ok()).collect::<Option<_>>()?;
        Some(Call {
            layout: layout.into(),
            operation: operation.into(),
            rows: rows.into(),
            other: other.into(),
            times: times.try_into().ok()?,
        })
    }
}

/// Something about the machine or the run, by name.
#[derive(Clone, Debug, PartialEq, Eq)]
pub struct Fact {
    pub name: String,
    pub value: String,
}

impl Record for Fact {
    const FILE: &'static str = "machine.tsv";
    const HEAD: &'static [&'static str] = &["name", "value"];

    fn fields(&self) -> Vec<String> {
        vec![self.name.clone(), self.value.clone()]
    }

    fn from_fields(fields: &[&str]) -> Option<Fact> {
        let [name, value] = *<&[&str; 2]>::try_from(fields).ok()?;
        Some(Fact { name: name.into(), value: value.into() })
    }
}

/// How the tool lists a whole film.
#[derive(Clone, Debug, PartialEq)]
pub struct Tool {
    /// Where rows are listed.
    pub way: String,
    /// The rows of the film, their bits, how many of them each row lost, and the threads.
    pub rows: usize,
    pub bits: usize,
    pub lost: usize,
    pub jobs: usize,
    /// Rows a second.
    pub rate: f64,
    /// The part of all threads' time that is spent in the library.
    pub share: f64,
}

impl Record for Tool {
    const FILE: &'static str = "tool.tsv";
    const HEAD: &'static [&'static str] =
        &["listed in", "rows", "bits", "bits lost", "threads", "rows a second", "in the library"];

    fn fields(&self) -> Vec<String> {
        let numbers = [self.rows, self.bits, self.lost, self.jobs].map(|number| number.to_string());
        let mut fields = vec![self.way.clone()];
        fields.extend(numbers);
        fields.extend([format!("{:.0}", self.rate), format!("{:.2}", self.share)]);
        fields
    }

    fn from_fields(fields: &[&str]) -> Option<Tool> {
        let [way, rows, bits, lost, jobs, rate, share] = *<&[&str; 7]>::try_from(fields).ok()?;
        Some(Tool {
            way: way.into(),
            rows: rows.parse().ok()?,
            bits: bits.parse().ok()?,
            lost: lost.parse().ok()?,
            jobs: jobs.parse().ok()?,
            rate: rate.parse().ok()?,
            share: share.parse().ok()?,
        })
    }
}

#[cfg(test)]
mod tests {
    use super::*;

    fn text<R: Record>(records: &[R]) -> String {
        let lines = records.iter().map(|record| record.fields().join("\t") + "\n");
        R::HEAD.join("\t") + "\n" + &lines.collect::<String>()
    }

    #[test]
    fn records_are_read_as_they_were_written() {
        let key = Key { layout: "15 17 8 16".into(), rows: "film".into(), losses: "burst".into(), k: 8 };
        let p50 = Time::Took(1234.5);
        let cell = Cell { trials: 40, over: 1, p50, p99: Time::Over, largest: 2, ..Cell::empty(key) };
        let cells = vec![Cell { ratio: Some(20.5), ..cell.clone() }, cell];
        assert_eq!(parse(&text(&cells)), Ok(cells));
        let lister = "steps".into();
        let setups = vec![Setup { setup: 1, lister, trials: 9, rows: 10, largest: 2, longer: 1, time: 12.25 }];
        assert_eq!(parse(&text(&setups)), Ok(setups));
        let way = "workers".into();
        let tools = vec![Tool { way, rows: 20_000, bits: 2040, lost: 1, jobs: 2, rate: 50_000.0, share: 0.75 }];
        assert_eq!(parse(&text(&tools)), Ok(tools));
        let names = ["5 3 4 4", "read", "blank", "peer"].map(String::from);
        let [layout, operation, rows, other] = names;
        let call = Call { layout, operation, rows, other, times: [1.0, 0.5, 2.0, 9.25, 0.5, 0.25] };
        assert_eq!(call.ratio(), 2.0);
        let calls = vec![call];
        assert_eq!(parse(&text(&calls)), Ok(calls));
    }

    #[test]
    fn a_wrong_line_is_named() {
        assert_eq!(parse::<Fact>("name\tvalue\ncores\t2\ncores\n"), Err(3));
        assert_eq!(parse::<Fact>("nome\tvalue\n"), Err(1));
        assert_eq!(parse::<Fact>(""), Err(1));
    }
}
