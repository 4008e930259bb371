//! What ends a run before all rows are done.

use std::sync::atomic::{AtomicBool, Ordering};
use std::sync::Arc;
use std::time::{Duration, Instant};

use signal_hook::consts::SIGINT;
use signal_hook::flag;

use crate::trouble::{Result, Trouble};

/// The exit status after an interrupt, as shells have it.
pub const INTERRUPTED: u8 = 130;

/// An interrupt, or the end of the time that all rows together may take.
pub struct Stop {
    interrupted: Arc<AtomicBool>,
    deadline: Option<Instant>,
}

impl Stop {
    /// From now on an interrupt is noticed, and a second one ends the program at once.
    pub fn new(seconds: Option<f64>) -> Result<Stop> {
        let interrupted = Arc::new(AtomicBool::new(false));
        flag::register_conditional_shutdown(SIGINT, INTERRUPTED.into(), Arc::clone(&interrupted))
            .and_then(|_| flag::register(SIGINT, Arc::clone(&interrupted)))
            .map_err(|error| Trouble::with("interrupts", error))?;
        let deadline = seconds.and_then(|seconds| Instant::now().checked_add(Duration::from_secs_f64(seconds)));
        Ok(Stop { interrupted, deadline })
    }

    pub fn is_interrupted(&self) -> bool {
        self.interrupted.load(Ordering::Relaxed)
    }

    /// Is it time to stop?
    pub fn is_due(&self) -> bool {
        self.is_interrupted() || self.deadline.map_or(false, |deadline| Instant::now() >= deadline)
    }
}
