//! Counts what came out of many rows.

use std::collections::BTreeMap;

use crate::histogram;
use crate::json::{object, Json};
use crate::lister::Silence;
use crate::verdict::Verdict;

/// How many of the slowest rows are named.
const SLOWEST: usize = 3;

#[derive(Default)]
pub struct Tally {
    pub rows: usize,
    /// Lists of one row.
    pub alone: usize,
    /// Lists of several rows, by their size.
    pub several: BTreeMap<usize, usize>,
    /// Lists without a row.
    pub none: usize,
    /// Refused rows, by the number of the refusal, and by what is said of it.
    pub refused: BTreeMap<u32, usize>,
    refused_words: BTreeMap<String, usize>,
    pub given_up: usize,
    /// Rows at which two workers ended without an answer.
    pub ended: usize,
    /// Rows that were not reached.
    pub not_done: usize,
    /// The time that all of it took.
    pub seconds: f64,
    /// The time that the rows themselves took, one after the other.
    pub listing: f64,
    /// The slowest rows, the slowest first.
    pub slowest: Vec<(usize, f64)>,
}

impl Tally {
    pub fn count(&mut self, row: usize, verdict: Verdict, seconds: f64) {
        self.rows += 1;
        match verdict {
            Verdict::Rows(0) => self.none += 1,
            Verdict::Rows(1) => self.alone += 1,
            Verdict::Rows(count) => *self.several.entry(count).or_default() += 1,
            Verdict::Refused(number, _) => {
                *self.refused.entry(number).or_default() += 1;
                *self.refused_words.entry(verdict.words()).or_default() += 1;
            }
            Verdict::Silent(Silence::TooLong) => self.given_up += 1,
            Verdict::Silent(Silence::Ended) => self.ended += 1,
            Verdict::Silent(Silence::NotDone) => self.not_done += 1,
        }
        if verdict != Verdict::Silent(Silence::NotDone) {
            self.listing += seconds;
            self.slowest.push((row, seconds));
            self.slowest.sort_by(|a, b| b.1.total_cmp(&a.1));
            self.slowest.truncate(SLOWEST);
        }
    }

    /// Rows without a list of at least one row.
    pub fn not_listed(&self) -> usize {
        self.rows - self.alone - self.several.values().sum::<usize>()
    }

    pub fn rows_a_second(&self) -> f64 {
        self.rows as f64 / self.seconds.max(1e-9)
    }

    /// The counts as text; rows are called as `name` says.
    pub fn text(&self, name: &dyn Fn(usize) -> String) -> String {
        let mut lines = vec![
            format!("recovered alone    {}", self.alone),
            format!(
                "several rows       {}{}",
                self.several.values().sum::<usize>(),
                histogram::words("size: lists", &self.several)
            ),
            format!("not listed         {}{}", self.not_listed(), self.reasons()),
        ];
        let slowest: Vec<String> =
            self.slowest.iter().map(|(row, seconds)| format!("{} with {}", name(*row), time(*seconds))).collect();
        lines.push(format!("time               {}, {:.0} rows a second", time(self.seconds), self.rows_a_second()));
        lines.push(format!("slowest            {}", slowest.join(", ")));
        lines.join("\n") + "\n"
    }

    /// Why rows are not listed.
    fn reasons(&self) -> String {
        let mut parts = Vec::new();
        let mut part = |count: usize, what: String| {
            if count > 0 {
                parts.push(format!("{what}: {count}"));
            }
        };
        part(self.none, String::from("no row fits"));
        part(self.given_up, String::from("given up"));
        part(self.ended, String::from("worker ended"));
        part(self.not_done, String::from("not done"));
        for (words, count) in &self.refused_words {
            part(*count, words.clone());
        }
        if parts.is_empty() {
            String::new()
        } else {
            format!(" ({})", parts.join(", "))
        }
    }

    /// The counts for programs; rows are called as `name` says.
    pub fn json(&self, name: &dyn Fn(usize) -> Vec<(&'static str, Json)>) -> Vec<(String, Json)> {
        let slowest = |(row, seconds): &(usize, f64)| {
            let members = name(*row).into_iter().chain([("seconds", Json::Number(*seconds))]);
            Json::Object(members.map(|(name, value)| (String::from(name), value)).collect())
        };
        let json = object([
            ("alone", Json::Count(self.alone)),
            ("several", counts(&self.several)),
            ("not_listed", Json::Count(self.not_listed())),
            ("none", Json::Count(self.none)),
            ("refused", counts(&self.refused)),
            ("given_up", Json::Count(self.given_up)),
            ("worker_ended", Json::Count(self.ended)),
            ("not_done", Json::Count(self.not_done)),
            ("seconds", Json::Number(self.seconds)),
            ("listing_seconds", Json::Number(self.listing)),
            ("rows_a_second", Json::Number(self.rows_a_second())),
            ("slowest", Json::List(self.slowest.iter().map(slowest).collect())),
        ]);
        match json {
            Json::Object(members) => members,
            _ => Vec::new(),
        }
    }
}

fn counts<K: std::fmt::Display>(counts: &BTreeMap<K, usize>) -> Json {
    Json::Object(counts.iter().map(|(key, count)| (key.to_string(), Json::Count(*count))).collect())
}

/// A time in a unit that suits it.
pub fn time(seconds: f64) -> String {
    if seconds >= 1.0 {
        format!("{seconds:.1} s")
    } else if seconds >= 0.001 {
        format!("{:.1} ms", seconds * 1e3)
    } else {
        format!("{:.0} µs", seconds * 1e6)
    }
}

#[cfg(test)]
mod tests {
    use super::*;
    use crate::verdict::Loss;

    #[test]
    fn each_kind_is_counted() {
        let mut tally = Tally::default();
        for (row, (verdict, seconds)) in [
            (Verdict::Rows(1), 0.5),
            (Verdict::Rows(1), 0.1),
            (Verdict::Rows(3), 0.2),
            (Verdict::Rows(0), 0.2),
            (Verdict::Refused(9, Loss::Lost(4)), 1.5),
            (Verdict::Silent(Silence::TooLong), 2.0),
            (Verdict::Silent(Silence::Ended), 2.0),
            (Verdict::Silent(Silence::NotDone), 9.0),
        ]
        .into_iter()
        .enumerate()
        {
            tally.count(row, verdict, seconds);
        }
        assert_eq!((tally.rows, tally.alone, tally.not_listed()), (8, 2, 5));
        assert_eq!(tally.several, BTreeMap::from([(3, 1)]));
        assert_eq!(tally.slowest, [(5, 2.0), (6, 2.0), (4, 1.5)]);
        let text = tally.text(&|row| format!("row {row}"));
        assert!(text.contains("slowest            row 5 with 2.0 s, row 6 with 2.0 s, row 4 with 1.5 s"), "{text}");
        assert!(text.contains("several rows       1 (size: lists; 3: 1)"), "{text}");
        let silent = "no row fits: 1, given up: 1, worker ended: 1, not done: 1";
        let reasons = format!("not listed         5 ({silent}, refused: more rows than a list holds (9): 1)\n");
        assert!(text.contains(&reasons), "{text}");
        assert_eq!(tally.listing, 6.5);
    }
}
