//! Makes a page of what the benchmark stored.

use std::fs;
use std::io;
use std::path::{Path, PathBuf};

use bench::results::{read, Call, Cell, Fact, Key, Record, Setup, Time, Tool, SMALL};
use bench::text::{digits, microseconds, time};

use crate::cases::{Place, LOSSES, ROWS};
use crate::setups::{Published, PUBLISHED_TRIALS, SETUPS};
use crate::targets::{Met, FOR_ANY, FOR_P99, FOR_STEPS, TARGETS};
use crate::words::pairs;

pub const USAGE: &str = "\
bench report now=FOLDER [before=FOLDER] [out=FILE]
  now, before   what this version and the one before it stored
  out           the page, in Markdown; it names the pictures as they stand beside it";

/// The folder beside a run's figures with those of cells that were timed again.
const AGAIN: &str = "again";

/// The most times as long as the tuned peer that a call may take.
const CALL_BOUND: f64 = 1.5;

/// What one version stored.
struct Stored {
    folder: PathBuf,
    facts: Vec<Fact>,
    cells: Vec<Cell>,
    /// Cells that were timed again by themselves, for more trials.
    again: Vec<Cell>,
    setups: Vec<Setup>,
    calls: Vec<Call>,
    tool: Vec<Tool>,
}

impl Stored {
    fn new(folder: &Path) -> io::Result<Stored> {
        Ok(Stored {
            folder: folder.to_path_buf(),
            facts: read(folder)?,
            cells: read(folder)?,
            again: read(&folder.join(AGAIN))?,
            setups: read(folder)?,
            calls: read(folder)?,
            tool: read(folder)?,
        })
    }

    fn name(&self) -> String {
        self.folder.file_name().map_or(String::from("?"), |name| name.to_string_lossy().into_owned())
    }

    fn cell(&self, key: &Key) -> Option<&Cell> {
        self.cells.iter().find(|cell| cell.key == *key)
    }

    /// A cell as it was timed again, where that has more trials.
    fn oftener(&self, cell: &Cell) -> Option<&Cell> {
        self.again.iter().find(|again| again.key == cell.key && again.trials > cell.trials)
    }

    /// The cells that targets are judged by: each as it was timed most often.
    fn judged(&self) -> Vec<Cell> {
        self.cells.iter().map(|cell| self.oftener(cell).unwrap_or(cell).clone()).collect()
    }
}

struct Choice {
    now: Stored,
    before: Option<Stored>,
    out: Option<PathBuf>,
}

/// Makes the page. Answers what went wrong.
pub fn run(words: &[String]) -> Result<(), String> {
    let (mut now, mut before, mut out) = (None, None, None);
    for (name, text) in pairs(words).unwrap_or_default() {
        match name {
            "now" => now = Some(PathBuf::from(text)),
            "before" => before = Some(PathBuf::from(text)),
            "out" => out = Some(PathBuf::from(text)),
            _ => return Err(format!("usage: {USAGE}")),
        }
    }
    let now = now.ok_or_else(|| format!("usage: {USAGE}"))?;
    let stored = |folder: &PathBuf| Stored::new(folder).map_err(|error| error.to_string());
    let before = before.as_ref().map(stored).transpose()?;
    let choice = Choice { now: stored(&now)?, before, out };
    let page = page(&choice);
    match &choice.out {
        Some(path) => fs::write(path, page).map_err(|error| format!("{}: {error}", path.display())),
        None => {
            print!("{page}");
            Ok(())
        }
    }
}

fn page(choice: &Choice) -> String {
    let now = &choice.now;
    let parts = [intro(choice), machine(now), targets(now), listing(choice), small(now), table_two(now), calls(now)];
    // Versions before 0.11.0 have not timed the tool.
    let tool = Some(tool(now)).filter(|_| !now.tool.is_empty());
    parts.into_iter().chain(tool).collect::<Vec<_>>().join("\n")
}

/// A table of Markdown.
fn table(head: &[&str], lines: &[Vec<String>]) -> String {
    let line = |fields: &[String]| format!("| {} |\n", fields.join(" | "));
    let head: Vec<String> = head.iter().map(|name| name.to_string()).collect();
    let rule = format!("|{}\n", "---|".repeat(head.len()));
    line(&head) + &rule + &lines.iter().map(|fields| line(fields)).collect::<String>()
}

fn intro(choice: &Choice) -> String {
    let name = choice.now.name();
    let before = choice.before.as_ref().map_or(String::new(), |before| format!(" BEFORE={}", before.name()));
    format!(
        "# Benchmarks

How long the library takes, beside other implementations in the same run and on the same inputs. This page is made by `make bench-report`
from the figures in `docs/benchmarks/{name}`; they are those of one run on one machine.

```sh
make bench NAME={name} MINUTES=40       # times everything and stores it in docs/benchmarks/{name}
make bench-report NAME={name}{before}   # makes this page and its pictures of what is stored
```

`make bench` is no test: nothing fails when a figure is high. `bench list` with words (`rust/bench/src/lists.rs` lists them) times single cells, and
`first=` a single case again.
"
    )
}

fn machine(now: &Stored) -> String {
    let lines: Vec<Vec<String>> = now.facts.iter().map(|fact| vec![fact.name.clone(), fact.value.clone()]).collect();
    format!("## Machine\n\n{}", table(&["", ""], &lines))
}

fn targets(now: &Stored) -> String {
    let mut lines: Vec<Vec<String>> = Vec::new();
    let cells = now.judged();
    for target in &TARGETS {
        let (measured, met) = target.measured(&cells);
        lines.push(vec![target.words.into(), measured, met.words().into()]);
    }
    for operation in ["write", "read", "mend"] {
        lines.push(call_target(now, operation));
    }
    let words = format!(
        "Each target is judged by the worst of the cells that it speaks of, which is named. \"So far\" stands where some of them have too few trials:
fewer than {FOR_P99} for p99, {FOR_STEPS} of the steps, {FOR_ANY} else. Where no kind of rows is named, all are meant. Of {again} cells there are more trials
in `{AGAIN}/lists.tsv` beside the other figures, timed by themselves; targets judge these cells by those trials, the tables below do not have them.",
        again = now.cells.iter().filter(|cell| now.oftener(cell).is_some()).count()
    );
    format!("## Targets\n\n{words}\n\n{}", table(&["target", "measured", "met"], &lines))
}

fn call_target(now: &Stored, operation: &str) -> Vec<String> {
    let beside_peer = now.calls.iter().filter(|call| call.operation == operation && call.other == "peer");
    let (measured, met) = match beside_peer.max_by(|a, b| a.ratio().total_cmp(&b.ratio())) {
        None => (String::from("not measured"), Met::Unknown),
        Some(call) => {
            let met = if call.ratio() <= CALL_BOUND { Met::Yes } else { Met::No };
            (format!("{:.2} times ({}, {} rows)", call.ratio(), call.layout, call.rows), met)
        }
    };
    let words = format!("{operation}, any kind of row: at most {CALL_BOUND} times the tuned peer");
    vec![words, measured, met.words().into()]
}

const LISTING: &str = "## Listing

Each list is made in a child process, which is ended after 5 s. What takes less than 20 ms is made three times, and the least time counts:
whatever else the machine does in between only adds to it. Times are by the clock on the wall.

- Rows: random; blank; all ones; stripes of a period (`stripes4` repeats after 4 bits); one and four tracks of 5 to 30 bits on a blank row;
  synthetic films with runs of 5 to 200 bits; rows of real films (`rust/films`, several boards, also filled copper); and rows of
  real films with the message of a neighbouring row, a mix-up with mostly no row on the list.
- Losses: anywhere (`uniform`), side by side (`burst`), at the ends of runs (`runends`), all in one block (`block`). Without losses, and in rows
  of one colour, they make no difference and stand as `uniform`.
- The *steps* are steps 1 to 6 of the source in plain Rust, corrected so that their list is complete (`rust/reference/src/steps.rs`). They are
  asked for fewer lists, and given up after 1 s: \"over\" says that their middle list, here or with fewer losses, passed it.
- A cell is \"left out\" where none of the library's lists with fewer losses came in time, and \"no time\" stands where the run's time was spent.
";

fn listing(choice: &Choice) -> String {
    let mut text = String::from(LISTING);
    let folder = format!("benchmarks/{}", choice.now.name());
    for (file, words) in [("p50.svg", "p50"), ("worst.svg", "worst")] {
        if choice.now.folder.join(file).exists() {
            text += &format!("\n![{words} against k, for each kind of rows]({folder}/{file})\n");
        }
    }
    for layout in layouts(&choice.now) {
        text += &layout_part(choice, &layout);
    }
    text
}

/// The layouts of a run: those that are always timed first.
fn layouts(now: &Stored) -> Vec<String> {
    let mut layouts: Vec<String> = Place::all().into_iter().map(Place::name).collect();
    for cell in &now.cells {
        if !layouts.contains(&cell.key.layout) {
            layouts.push(cell.key.layout.clone());
        }
    }
    layouts.retain(|layout| layout != SMALL && now.cells.iter().any(|cell| cell.key.layout == *layout));
    layouts
}

/// The numbers of losses that were timed in a layout.
fn losses_of(now: &Stored, layout: &str) -> Vec<usize> {
    let mut ks: Vec<usize> = now.cells.iter().filter(|cell| cell.key.layout == layout).map(|cell| cell.key.k).collect();
    ks.sort_unstable();
    ks.dedup();
    ks
}

/// A line for each kind of rows and losses, a column for each number of losses.
fn grid(now: &Stored, layout: &str, text: impl Fn(&Cell) -> String) -> String {
    let ks = losses_of(now, layout);
    let mut head = vec![String::from("rows"), String::from("losses")];
    head.extend(ks.iter().map(|k| format!("k = {k}")));
    let head: Vec<&str> = head.iter().map(String::as_str).collect();
    let mut lines = Vec::new();
    for (rows, _) in ROWS {
        for losses in LOSSES.iter().map(|losses| losses.0).chain(["any"]) {
            let key = |k| Key { layout: layout.into(), rows: rows.into(), losses: losses.into(), k };
            let cells: Vec<Option<&Cell>> = ks.iter().map(|k| now.cell(&key(*k))).collect();
            if cells.iter().any(Option::is_some) {
                let mut line = vec![String::from(rows), String::from(losses)];
                line.extend(cells.into_iter().map(|cell| cell.map_or(String::new(), &text)));
                lines.push(line);
            }
        }
    }
    table(&head, &lines)
}

fn layout_part(choice: &Choice, layout: &str) -> String {
    let now = &choice.now;
    let mut text =
        format!("\n### {layout}\n\nThe library: p50 / p99 / worst (trials, and how many of them passed 5 s).\n\n");
    text += &grid(now, layout, taken_text);
    let before = choice.before.as_ref();
    let also = before.map_or(String::new(), |before| format!("; p50 of the library before, {}", before.name()));
    text += &format!("\nThe steps: p50 (how many times as long as the library on the same lists){also}.\n\n");
    text += &grid(now, layout, |cell| beside_text(cell, before));
    text
}

fn taken_text(cell: &Cell) -> String {
    if cell.trials == 0 {
        return String::from(if cell.p50 == Time::Over { "left out" } else { "no time" });
    }
    let over = if cell.over > 0 { format!(", {} over", cell.over) } else { String::new() };
    let Cell { p50, p99, worst, trials, .. } = cell;
    format!("{} / {} / {} ({trials}{over})", time(*p50), time(*p99), time(*worst))
}

fn beside_text(cell: &Cell, before: Option<&Stored>) -> String {
    let times = cell.ratio.map_or(String::new(), |ratio| format!(" ({} times)", digits(ratio)));
    let steps = format!("{}{times}", time(cell.steps_p50));
    match before {
        None => steps,
        Some(before) => {
            let was = before.cell(&cell.key).map_or(Time::Unknown, |cell| cell.p50);
            format!("{steps}; {}", time(was))
        }
    }
}

fn small(now: &Stored) -> String {
    let words = "## Rows of at most 60 bits

Each trial draws one of the 159 ways of cutting a row of at most 60 bits, a number of checks (half of them 0 to 4) and a kind of losses.
p50 / p99 / worst (trials, and how many of them passed 5 s).";
    let mut slow: Vec<&Cell> = now.cells.iter().filter(|cell| cell.key.layout == SMALL && cell.trials > 0).collect();
    slow.sort_by(|a, b| rank(b.worst).total_cmp(&rank(a.worst)));
    let line = |cell: &&Cell| {
        let Key { rows, k, .. } = &cell.key;
        vec![rows.clone(), k.to_string(), cell.slowest.clone(), time(cell.worst)]
    };
    let slowest: Vec<Vec<String>> = slow.iter().take(10).map(line).collect();
    format!(
        "{words}\n\n{}\nThe slowest of all, from different cells:\n\n{}",
        grid(now, SMALL, taken_text),
        table(&["rows", "k", "case", "time"], &slowest)
    )
}

fn rank(time: Time) -> f64 {
    match time {
        Time::Took(time) => time,
        Time::Over => f64::INFINITY,
        Time::Unknown => 0.0,
    }
}

fn table_two(now: &Stored) -> String {
    let words = "## Table II of the source

Random rows with bits lost anywhere. The source made a million trials of each setup. Its fields may be built otherwise than here, so that the lists
of single cases need not be the same.";
    let head =
        ["setup", "layout", "k", "by", "trials", "average list", "largest", "longer than one", "a million would have"];
    let mut lines = Vec::new();
    for (number, published) in (1..).zip(&SETUPS) {
        lines.push(published_line(number, published));
        let ours = now.setups.iter().filter(|setup| setup.setup == number);
        lines.extend(ours.map(setup_line));
    }
    format!("{words}\n\n{}", table(&head, &lines))
}

fn published_line(number: usize, published: &Published) -> Vec<String> {
    let Published { layout, k, average, largest, longer } = published;
    let layout = Place::One(*layout).name();
    let mut line = vec![number.to_string(), layout, k.to_string(), String::from("the source")];
    line.extend([PUBLISHED_TRIALS.to_string(), average.to_string(), largest.to_string(), longer.to_string()]);
    line.push(longer.to_string());
    line
}

fn setup_line(setup: &Setup) -> Vec<String> {
    let Setup { lister, trials, rows, largest, longer, time, .. } = setup;
    let by = format!("{lister} ({} a list)", microseconds(*time));
    let each = 1.0 / (*trials).max(1) as f64;
    let mut line = vec![String::new(), String::new(), String::new(), by, trials.to_string()];
    line.push(format!("{:.6}", *rows as f64 * each));
    line.extend([largest.to_string(), longer.to_string()]);
    line.push(format!("{:.0}", *longer as f64 * each * PUBLISHED_TRIALS as f64));
    line
}

fn tool(now: &Stored) -> String {
    let words = "## The tool on a whole film

`film list` of a real film whose rows lost one bit each, in the tool's own process (`--patience 0`) and in workers, as it is unless told otherwise: the
middle turn of several, and the part of all threads' time that goes to the library.";
    format!("{words}\n\n{}", table(Tool::HEAD, &now.tool.iter().map(Tool::fields).collect::<Vec<_>>()))
}

fn calls(now: &Stored) -> String {
    let words = "## Writing, reading, mending

Beside the tuned peer in plain Rust, which has no proof, and writing also beside the plain reference. The two take turns of 256
calls; the averages are those of the middle turn. Mending mends a row that lost one bit. p50, p99 and worst are those of single calls and hold one
reading of the clock.";
    let head =
        ["layout", "call", "rows", "beside", "average", "p50", "p99", "worst", "other's average", "times as long"];
    let line = |call: &Call| {
        let Call { layout, operation, rows, other, times } = call;
        let mut line = vec![layout.clone(), operation.clone(), rows.clone(), other.clone()];
        line.extend(times[..5].iter().map(|time| microseconds(*time)));
        line.push(format!("{:.2}", call.ratio()));
        line
    };
    format!("{words}\n\n{}", table(&head, &now.calls.iter().map(line).collect::<Vec<_>>()))
}
