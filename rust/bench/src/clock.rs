//! Turns of two things that do the same, and what they took.

use std::process;
use std::time::{Duration, Instant};

/// Calls in one turn, timed together; and calls after it that are timed one by one.
const TOGETHER: usize = 256;
const ONE_BY_ONE: usize = 64;

/// What one of the two took.
struct Taken {
    turns: Vec<Duration>,
    single: Vec<Duration>,
}

impl Taken {
    fn new() -> Taken {
        Taken { turns: Vec::new(), single: Vec::new() }
    }

    /// One turn from input `first` on. Answers the total of what the calls answered.
    fn turn(&mut self, first: usize, call: &mut dyn FnMut(usize) -> usize) -> usize {
        let mut total: usize = 0;
        let start = Instant::now();
        for i in first..first + TOGETHER {
            total = total.wrapping_add(call(i));
        }
        self.turns.push(start.elapsed());
        for i in first..first + ONE_BY_ONE {
            let start = Instant::now();
            let answer = call(i);
            self.single.push(start.elapsed());
            total = total.wrapping_add(answer);
        }
        total
    }

    /// Microseconds of one call: on average over the middle turn, and p50, p99 and worst of single calls.
    fn times(&mut self) -> [f64; 4] {
        let average = at(&mut self.turns, 50) / TOGETHER as f64;
        [average, at(&mut self.single, 50), at(&mut self.single, 99), at(&mut self.single, 100)]
    }
}

/// The time that so many of a hundred do not pass, in microseconds.
fn at(times: &mut [Duration], percent: usize) -> f64 {
    times.sort_unstable();
    times[(times.len() - 1) * percent / 100].as_secs_f64() * 1e6
}

fn print(name: &str, times: &[f64; 4]) {
    let [average, p50, p99, worst] = times;
    let per_second = 1e6 / average;
    println!("    {name:<8}{per_second:>12.0} /s   p50 {p50:>8.2} us   p99 {p99:>8.2} us   worst {worst:>9.2} us");
}

/// Lets the library and another implementation take turns for about this time, and prints and answers what they took,
/// as [`bench::results::Call`] has it. They get the same inputs, and what they answer must be the same.
pub fn compare(
    name: &str,
    time: Duration,
    mut library: impl FnMut(usize) -> usize,
    other: &str,
    mut peer: impl FnMut(usize) -> usize,
) -> [f64; 6] {
    let (mut ours, mut theirs) = (Taken::new(), Taken::new());
    let begin = Instant::now();
    let mut round = 0;
    // The first round warms caches and is not counted.
    while round < 2 || begin.elapsed() < time {
        let first = round * 7;
        let totals = if round % 2 == 0 {
            let total = ours.turn(first, &mut library);
            (total, theirs.turn(first, &mut peer))
        } else {
            let total = theirs.turn(first, &mut peer);
            (ours.turn(first, &mut library), total)
        };
        if totals.0 != totals.1 {
            eprintln!("{name}: library and {other} disagree");
            process::exit(1);
        }
        if round == 0 {
            ours = Taken::new();
            theirs = Taken::new();
        }
        round += 1;
    }
    let (ours, theirs) = (ours.times(), theirs.times());
    println!("  {name}");
    print("library", &ours);
    print(other, &theirs);
    println!("    the library takes {:.2} times as long as the {other}", ours[0] / theirs[0]);
    [ours[0], ours[1], ours[2], ours[3], theirs[0], theirs[1]]
}

/// How long one reading of the clock takes, in the middle of many.
pub fn clock_reading() -> Duration {
    let mut readings: Vec<Duration> = (0..10_001)
        .map(|_| {
            let start = Instant::now();
            start.elapsed()
        })
        .collect();
    readings.sort_unstable();
    readings[readings.len() / 2]
}
