//! What the library is to reach, each target over all cells that it speaks of.

use bench::results::{Cell, Key, Time, SMALL};
use bench::text;
use dairyhour::MOST_LOSSES;

/// What of a cell is judged.
#[derive(Clone, Copy, Debug, PartialEq, Eq)]
enum Figure {
    P50,
    P99,
    Worst,
    /// The share of lists that passed the limit.
    Over,
    /// How many times as long as writing the row's message it takes at p50.
    TimesWrite,
    /// How many times as long the steps take at p50.
    TimesSteps,
}

/// A target: its figure is below its bound in each of its cells, or, for [`Figure::TimesSteps`], not below it. Times
/// are in microseconds.
pub struct Target {
    pub words: &'static str,
    layout: &'static str,
    /// No names stand for all rows.
    rows: &'static [&'static str],
    ks: &'static [usize],
    figure: Figure,
    bound: f64,
}

const EVERY: &[usize] = &[0, 1, 2, 4, 6, 7, 8, 10, MOST_LOSSES];
const MS: f64 = 1e3;
const S: f64 = 1e6;

const fn target(
    words: &'static str,
    layout: &'static str,
    rows: &'static [&'static str],
    ks: &'static [usize],
    figure: Figure,
    bound: f64,
) -> Target {
    Target { words, layout, rows, ks, figure, bound }
}

/// The fewest trials by which a target is met: for p99, beside the steps, and else.
pub const FOR_P99: usize = 100;
pub const FOR_STEPS: usize = 5;
pub const FOR_ANY: usize = 20;

const LONG: &str = "15 17 8 16";

pub const TARGETS: [Target; 17] = [
    target("15 17 8 16, k = 0: p50 within 3 times writing", LONG, &[], &[0], Figure::TimesWrite, 3.0),
    target("15 17 8 16, k = 1: p50 within 5 times writing", LONG, &[], &[1], Figure::TimesWrite, 5.0),
    target("15 17 8 16, k = 2: p50 under 0.2 ms", LONG, &[], &[2], Figure::P50, 0.2 * MS),
    target("15 17 8 16, k = 4: p50 under 1 ms", LONG, &[], &[4], Figure::P50, MS),
    target(
        "9 7 6 7, random rows, k = 7: 20 times as fast as the steps",
        "9 7 6 7",
        &["random"],
        &[7],
        Figure::TimesSteps,
        20.0,
    ),
    target(
        "15 17 8 16, real films, k ≤ 4: worst under 10 ms",
        LONG,
        &["film"],
        &[0, 1, 2, 4],
        Figure::Worst,
        10.0 * MS,
    ),
    target("15 17 8 16, real films, k = 8: p99 under 50 ms", LONG, &["film"], &[8], Figure::P99, 50.0 * MS),
    target("15 17 8 16, real films, k = 12: p50 under 100 ms", LONG, &["film"], &[12], Figure::P50, 100.0 * MS),
    target(
        "15 17 8 16, real films, k = 12: at most one in twenty over the limit",
        LONG,
        &["film"],
        &[12],
        Figure::Over,
        0.05,
    ),
    target(
        "15 17 8 16, blank and all-ones rows, every k: worst under 5 ms",
        LONG,
        &["blank", "ones"],
        EVERY,
        Figure::Worst,
        5.0 * MS,
    ),
    target("15 17 8 16, random rows, k = 12: worst under 200 ms", LONG, &["random"], &[12], Figure::Worst, 200.0 * MS),
    target(
        "15 17 8 0, blank rows, k = 8 (overflow): worst under 200 ms",
        "15 17 8 0",
        &["blank"],
        &[8],
        Figure::Worst,
        200.0 * MS,
    ),
    target("17 15 8 8, real films, k = 8: p99 under 200 ms", "17 15 8 8", &["film"], &[8], Figure::P99, 200.0 * MS),
    target("15 17 8 4, real films, k = 8: p50 under 2 ms", "15 17 8 4", &["film"], &[8], Figure::P50, 2.0 * MS),
    target("15 17 8 4, real films, k = 8: worst under 5 s", "15 17 8 4", &["film"], &[8], Figure::Worst, 5.0 * S),
    target("rows up to 60 bits, every k: worst under 1 s", SMALL, &[], EVERY, Figure::Worst, S),
    target("5 3 4 4, every row and k: worst under 1 s", "5 3 4 4", &[], EVERY, Figure::Worst, S),
];

/// Does a target speak of such cells?
pub fn speak_of(key: &Key) -> bool {
    TARGETS.iter().any(|target| target.speaks_of(key))
}

/// How a target was met.
#[derive(Clone, Copy, Debug, PartialEq, Eq)]
pub enum Met {
    Yes,
    No,
    /// By what was timed, but some of its cells have no or too few trials.
    SoFar,
    /// None of its cells was timed.
    Unknown,
}

impl Met {
    pub fn words(self) -> &'static str {
        match self {
            Met::Yes => "yes",
            Met::No => "**no**",
            Met::SoFar => "so far",
            Met::Unknown => "?",
        }
    }
}

impl Target {
    fn speaks_of(&self, key: &Key) -> bool {
        let has_rows = self.rows.is_empty() || self.rows.contains(&&key.rows[..]);
        key.layout == self.layout && has_rows && self.ks.contains(&key.k)
    }

    /// A cell's figure, so that less is better; the greatest number where it passed the limit.
    fn judged(&self, cell: &Cell) -> Option<f64> {
        let time = |time: Time| match time {
            Time::Took(time) => Some(time),
            Time::Over => Some(f64::INFINITY),
            Time::Unknown => None,
        };
        match self.figure {
            Figure::P50 => time(cell.p50),
            Figure::P99 => time(cell.p99),
            Figure::Worst => time(cell.worst),
            Figure::Over if cell.trials == 0 => time(cell.p50),
            Figure::Over => Some(cell.over as f64 / cell.trials as f64),
            Figure::TimesWrite => Some(time(cell.p50)? / cell.write.took()?),
            Figure::TimesSteps => cell.ratio.map(|ratio| -ratio),
        }
    }

    fn figure_text(&self, judged: f64) -> String {
        match self.figure {
            _ if judged.is_infinite() => String::from("over"),
            Figure::P50 | Figure::P99 | Figure::Worst => text::microseconds(judged),
            Figure::Over => format!("{:.1} %", judged * 100.0),
            Figure::TimesWrite => format!("{judged:.2} times"),
            Figure::TimesSteps => format!("{} times", text::digits(-judged)),
        }
    }

    /// The worst figure of its cells, where it was seen and on how many trials, and whether the target is met.
    pub fn measured(&self, cells: &[Cell]) -> (String, Met) {
        let spoken_of = cells.iter().filter(|cell| self.speaks_of(&cell.key));
        let judged = spoken_of.clone().filter_map(|cell| self.judged(cell).map(|figure| (figure, cell)));
        let is_whole = judged.clone().filter(|(_, cell)| self.is_enough(cell)).count() == spoken_of.count();
        let (figure, cell) = match judged.max_by(|a, b| a.0.total_cmp(&b.0)) {
            Some(worst) => worst,
            None => return (String::from("not measured"), Met::Unknown),
        };
        let Key { rows, losses, k, .. } = &cell.key;
        let words = self.figure_text(figure);
        let place = format!("{words} ({rows}, {losses}, k = {k}; {})", text::trials(cell.trials));
        let met = match (self.is_met_by(figure), is_whole) {
            (false, _) => Met::No,
            (true, false) => Met::SoFar,
            (true, true) => Met::Yes,
        };
        (place, met)
    }

    /// Are there as many trials as the figure needs to mean something?
    fn is_enough(&self, cell: &Cell) -> bool {
        match self.figure {
            Figure::P99 => cell.trials >= FOR_P99,
            Figure::TimesSteps => cell.steps_trials >= FOR_STEPS,
            _ => cell.trials >= FOR_ANY,
        }
    }

    fn is_met_by(&self, figure: f64) -> bool {
        match self.figure {
            Figure::TimesSteps => figure <= -self.bound,
            Figure::Over | Figure::TimesWrite => figure <= self.bound,
            Figure::P50 | Figure::P99 | Figure::Worst => figure < self.bound,
        }
    }
}

#[cfg(test)]
mod tests {
    use super::*;

    /// 15 17 8 16, real films, k = 8: p99 under 50 ms.
    fn judge(trials: usize, p99s: &[Time]) -> (String, Met) {
        let key = Key { layout: LONG.into(), rows: "film".into(), losses: "burst".into(), k: 8 };
        let cells = p99s.iter().map(|p99| Cell { trials, p99: *p99, ..Cell::empty(key.clone()) });
        let target = TARGETS.iter().find(|target| target.figure == Figure::P99 && target.speaks_of(&key));
        target.map_or((String::new(), Met::Unknown), |target| target.measured(&cells.collect::<Vec<Cell>>()))
    }

    #[test]
    fn the_worst_cell_judges() {
        let (fast, slow) = (Time::Took(4e3), Time::Took(6e4));
        assert_eq!(judge(100, &[fast, fast]), (String::from("4.00 ms (film, burst, k = 8; 100 trials)"), Met::Yes));
        assert_eq!(judge(100, &[fast, slow]), (String::from("60.0 ms (film, burst, k = 8; 100 trials)"), Met::No));
        assert_eq!(judge(100, &[Time::Over, slow]).1, Met::No);
        assert_eq!(judge(100, &[fast, Time::Unknown]).1, Met::SoFar);
        assert_eq!(judge(99, &[fast, fast]).1, Met::SoFar);
        assert_eq!(judge(99, &[fast, slow]).1, Met::No);
        assert_eq!(judge(100, &[]).1, Met::Unknown);
    }
}
