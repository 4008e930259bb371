//! How far a run is, on standard error: a bar where that is a terminal, else a line every few seconds.

use std::fmt;
use std::time::{Duration, Instant};

use indicatif::{ProgressBar, ProgressDrawTarget, ProgressState, ProgressStyle};

use crate::files;
use crate::tally::time;

/// Between two lines.
const EVERY: Duration = Duration::from_secs(3);

pub struct Progress {
    bar: ProgressBar,
    quiet: bool,
    count: usize,
    began: Instant,
    /// When the last line was written.
    said: Instant,
}

impl Progress {
    /// For so many rows; shows nothing if `quiet`.
    pub fn new(count: usize, quiet: bool) -> Progress {
        let target = if quiet { ProgressDrawTarget::hidden() } else { ProgressDrawTarget::stderr() };
        let bar = ProgressBar::with_draw_target(Some(count as u64), target);
        let rate = |state: &ProgressState, to: &mut dyn fmt::Write| {
            // There is nowhere to say that a rate cannot be shown.
            let _ = write!(to, "{:.0}", state.per_sec());
        };
        if let Ok(style) = ProgressStyle::with_template("{wide_bar} {pos} of {len} rows, {rate} a second, {eta} left") {
            bar.set_style(style.with_key("rate", rate));
        }
        let now = Instant::now();
        Progress { bar, quiet, count, began: now, said: now }
    }

    /// So many rows are done.
    pub fn show(&mut self, done: usize) {
        self.bar.set_position(done as u64);
        if !self.quiet && self.bar.is_hidden() && self.said.elapsed() >= EVERY {
            self.said = Instant::now();
            let spent = time(self.began.elapsed().as_secs_f64());
            files::complain(&format!("film: {done} of {} rows after {spent}", self.count));
        }
    }

    pub fn end(&self) {
        self.bar.finish_and_clear();
    }
}
