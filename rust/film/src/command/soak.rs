//! `film soak`: an acceptance test for the machine that the library runs on.

use std::borrow::Cow;
use std::collections::BTreeMap;
use std::fmt::Write as _;
use std::mem;
use std::path::Path;
use std::sync::Arc;
use std::time::Instant;

use container::Head;
use dairyhour::Layout;
use reference::bits::{pack, unpack};
use reference::list::comes_from;
use reference::random::Random;
use reference::samples::{lose, row, Kind, Losses};

use super::{layout_of, message_of, read_film};
use crate::args::Soak;
use crate::json::Json;
use crate::lister::{Answer, Lister, Next, Outcome, Rows, Silence, Task};
use crate::picture::Film;
use crate::progress::Progress;
use crate::status;
use crate::stop::{Stop, INTERRUPTED};
use crate::tally::{time, Tally};
use crate::trouble::Result;
use crate::verdict::{refusal, Loss, Verdict};
use crate::{cut, files, hex};

/// The layouts of made-up rows.
const LAYOUTS: [[u8; 4]; 4] = [[5, 3, 4, 12], [9, 7, 6, 12], [10, 6, 6, 16], [15, 17, 8, 16]];

/// How many seconds a row may take unless it is said.
const PATIENCE: f64 = 1.0;

/// How many rows that were given up are described.
const DESCRIBED: usize = 20;

pub fn run(args: &Soak) -> Result<u8> {
    let films = args.films.iter().map(|path| film(args, path)).collect::<Result<Vec<_>>>()?;
    let (first, count) = args.case.map_or((0, args.rows), |number| (number, 1));
    let cases =
        Cases { seed: args.seed, most: args.most, layout: args.layout, films, first, show: args.case.is_some() };
    let mut report = Report::default();
    let began = Instant::now();
    let mut progress = Progress::new(count, args.say.quiet);
    let stop = Stop::new(args.work.deadline)?;
    let run = Lister::new(&args.work, PATIENCE)?.run(&Arc::new(cases), count, &stop, &mut progress, |row, tried| {
        report.count(first + row, tried);
        if report.faults.is_empty() {
            Next::Go
        } else {
            Next::Stop
        }
    })?;
    report.tally.seconds = began.elapsed().as_secs_f64();
    match (args.say.json, args.say.quiet) {
        (true, _) => files::say(&format!("{}\n", report.json()), None)?,
        (false, false) => files::say(&report.text(), None)?,
        (false, true) => {}
    }
    if let Some(fault) = report.faults.first() {
        files::complain(fault);
    }
    run.trouble.map_or(Ok(()), Err)?;
    let sound = report.is_sound() && !(args.strict && report.tally.given_up > 0);
    Ok(if sound && stop.is_interrupted() { INTERRUPTED } else { status(sound) })
}

/// A film whose rows are tried.
struct Tape {
    name: String,
    film: Film,
    head: Head,
}

fn film(args: &Soak, path: &Path) -> Result<Tape> {
    let film = read_film(path)?;
    let head = cut::head(&film, args.layout)?;
    Ok(Tape { name: files::name(path), film, head })
}

/// What decides the cases.
struct Cases {
    seed: u64,
    /// The most bits that a row loses.
    most: usize,
    layout: Option<Layout>,
    films: Vec<Tape>,
    /// The number of the first case.
    first: usize,
    /// Is each case to be shown?
    show: bool,
}

/// A row as it is sent and as it is received.
struct Case {
    number: usize,
    /// Where it is from.
    from: String,
    layout: reference::Layout,
    sent: Vec<bool>,
    losses: Losses,
    received: Vec<bool>,
    message: Vec<u8>,
}

/// A case that was tried.
struct Tried {
    lost: usize,
    verdict: Verdict,
    seconds: f64,
    /// The case, where the sent row is missing or a listed row is wrong.
    fault: Option<String>,
    /// The case in a line, where it was given up.
    line: Option<String>,
    /// The case with all that is needed to try it elsewhere, where that is asked for.
    shown: Option<String>,
}

impl Rows for Cases {
    type Done = Tried;

    fn task(&self, row: usize) -> Task<'_> {
        let Case { message, received, .. } = self.case(self.first + row);
        Task { message: Cow::Owned(message), bits: received.len() as u16, row: Cow::Owned(pack(&received)) }
    }

    fn done(&self, row: usize, outcome: Outcome) -> Tried {
        let case = self.case(self.first + row);
        let Case { layout, sent, received, message, .. } = &case;
        let answer = outcome.answer.as_ref();
        let loss = Loss::new(sent.len(), received.len());
        let verdict = Verdict::new(&outcome, loss, answer.map_or(0, |answer| answer.count));
        let what = match verdict {
            Verdict::Silent(Silence::Ended) => Some(String::from("two workers ended at this row")),
            _ => answer.ok().and_then(|answer| wrong(answer, layout, message, sent, received)),
        };
        let fault = what.map(|what| format!("{}: {what}\n{}", case.name(self.seed), case.whole()));
        let line = || case.line(&outcome, verdict, loss);
        Tried {
            lost: loss.lost(),
            verdict,
            seconds: outcome.seconds,
            fault,
            line: Some(verdict).filter(|verdict| *verdict == Verdict::Silent(Silence::TooLong)).map(|_| line()),
            shown: self.show.then(|| format!("{}\n{}\n", line(), case.whole())),
        }
    }

    fn bytes(&self, _: &Tried) -> usize {
        mem::size_of::<Tried>()
    }
}

impl Cases {
    /// Case `number`, which depends on the seed and the number alone: every second one is a row of the films, where there are
    /// any.
    fn case(&self, number: usize) -> Case {
        let mut random = Random::new(self.seed.wrapping_add((number as u64).wrapping_mul(0xD134_2543_DE82_EF95)));
        let (from, layout, sent) = if !self.films.is_empty() && number % 2 == 1 {
            self.film_row(&mut random)
        } else {
            self.made_up(&mut random)
        };
        let lost = random.below(self.most.min(sent.len()) + 1);
        let losses = Losses::ALL[random.below(Losses::ALL.len())];
        let message = message_of(layout, &pack(&sent)).unwrap_or_default();
        let layout = reference::Layout::new(layout.l1, layout.l2, layout.nc, layout.r);
        let received = lose(losses, &layout, &sent, lost, &mut random);
        Case { number, from, layout, sent, losses, received, message }
    }

    /// Any row of the films.
    fn film_row(&self, random: &mut Random) -> (String, Layout, Vec<bool>) {
        let all: usize = self.films.iter().map(|tape| tape.head.rows()).sum();
        let mut number = random.below(all);
        for Tape { name, film, head } in &self.films {
            if number < head.rows() {
                let sent = unpack(&cut::row(film, head, number), head.row_bits());
                return (format!("{} of {name}", head.name(number)), layout_of(head.layout), sent);
            }
            number -= head.rows();
        }
        self.made_up(random)
    }

    fn made_up(&self, random: &mut Random) -> (String, Layout, Vec<bool>) {
        let layout = self.layout.unwrap_or_else(|| layout_of(LAYOUTS[random.below(LAYOUTS.len())]));
        let kind = Kind::ALL[random.below(Kind::ALL.len())];
        let bits = row(kind, layout.l1 * layout.l2 * layout.nc, random);
        (format!("a row of the kind {kind:?}"), layout, bits)
    }
}

impl Case {
    fn name(&self, seed: u64) -> String {
        format!("case {} of seed {seed}, {}", self.number, self.from)
    }

    /// What it is and what came out, in a line.
    fn line(&self, outcome: &Outcome, verdict: Verdict, loss: Loss) -> String {
        let reference::Layout { l1, l2, nc, r } = self.layout;
        let (from, losses) = (&self.from, self.losses);
        let (came, took) = (verdict.words(), time(outcome.seconds));
        format!("case {}: {from}, layout {l1},{l2},{nc},{r}, {loss} ({losses:?}): {came} after {took}", self.number)
    }

    /// All that is needed to try a case elsewhere.
    fn whole(&self) -> String {
        let mut text = format!("sent      {} bits {}\n", self.sent.len(), hex::text(&pack(&self.sent)));
        let _ = writeln!(text, "message   {}", hex::text(&self.message));
        let _ = write!(text, "received  {} bits {}", self.received.len(), hex::text(&pack(&self.received)));
        text
    }
}

/// What is wrong with an answer, as an independent implementation sees it. A list that was cut by refusal 9 need not hold
/// the row that was sent.
fn wrong(
    answer: &Answer,
    layout: &reference::Layout,
    message: &[u8],
    sent: &[bool],
    received: &[bool],
) -> Option<String> {
    let rows: Vec<Vec<bool>> =
        answer.rows.chunks_exact(container::bytes_for(sent.len())).map(|row| unpack(row, sent.len())).collect();
    if !matches!(answer.refusal, 0 | 9) {
        return Some(format!("it was {}", refusal(answer.refusal, Loss::new(sent.len(), received.len()))));
    }
    if answer.refusal == 0 && answer.count != rows.len() {
        return Some(format!("the count is {}, but there are {} rows", answer.count, rows.len()));
    }
    if rows.windows(2).any(|pair| pair[0] >= pair[1]) {
        return Some(String::from("the rows are out of order"));
    }
    let fits = |row: &Vec<bool>| {
        comes_from(received, row) && reference::write(layout, &pack(row), usize::MAX).as_deref() == Ok(message)
    };
    if !rows.iter().all(fits) {
        return Some(String::from("a row is listed that does not fit"));
    }
    let missing = answer.refusal == 0 && !rows.iter().any(|row| row == sent);
    missing.then(|| String::from("the row that was sent is missing"))
}

/// What is kept of the cases that were tried, however many they are.
#[derive(Default)]
struct Report {
    tally: Tally,
    by_losses: BTreeMap<usize, usize>,
    faults: Vec<String>,
    /// The first rows that were given up.
    given_up: Vec<String>,
    /// What is shown of the cases.
    shown: String,
}

impl Report {
    fn count(&mut self, number: usize, tried: Tried) {
        self.tally.count(number, tried.verdict, tried.seconds);
        *self.by_losses.entry(tried.lost).or_default() += 1;
        self.faults.extend(tried.fault);
        self.shown.extend(tried.shown);
        let room = DESCRIBED - self.given_up.len();
        self.given_up.extend(tried.line.into_iter().take(room));
    }

    /// No row is missing or wrong, and no worker broke down. A row that was given up says nothing.
    fn is_sound(&self) -> bool {
        self.faults.is_empty()
    }

    fn text(&self) -> String {
        let parts: Vec<String> = self.by_losses.iter().map(|(lost, rows)| format!("{lost}: {rows}")).collect();
        let verdict = if self.is_sound() { "no row missing or wrong" } else { "a row is MISSING or WRONG" };
        let given_up: String = self.given_up.iter().map(|line| format!("{line}\n")).collect();
        format!(
            "{}rows tried         {} (bits lost: rows; {})\n{}{given_up}verdict            {verdict}\n",
            self.shown,
            self.tally.rows,
            parts.join(", "),
            self.tally.text(&|number| format!("case {number}"))
        )
    }

    fn json(&self) -> Json {
        let losses = self.by_losses.iter().map(|(lost, rows)| (lost.to_string(), Json::Count(*rows))).collect();
        let mut members = vec![
            (String::from("rows"), Json::Count(self.tally.rows)),
            (String::from("rows_by_losses"), Json::Object(losses)),
        ];
        members.extend(self.tally.json(&|number| vec![("case", Json::Count(number))]));
        let list = |lines: &[String]| Json::List(lines.iter().cloned().map(Json::Text).collect());
        members.push((String::from("given_up_cases"), list(&self.given_up)));
        members.push((String::from("faults"), list(&self.faults)));
        Json::Object(members)
    }
}

#[cfg(test)]
mod tests {
    use super::*;

    /// What is kept does not grow with the rows, however many were given up.
    #[test]
    fn many_rows_are_counted_in_little_memory() {
        let mut report = Report::default();
        for number in 0..1000 {
            let (verdict, line) = (Verdict::Silent(Silence::TooLong), Some(format!("case {number}")));
            report.count(number, Tried { lost: 3, verdict, seconds: 1.0, fault: None, line, shown: None });
        }
        assert_eq!((report.tally.given_up, report.given_up.len()), (1000, DESCRIBED));
        assert!(report.given_up[DESCRIBED - 1] == "case 19" && report.shown.is_empty() && report.is_sound());
    }

    /// The library's answer for a row that lost nothing, changed in each way, is seen to be wrong.
    #[test]
    fn a_wrong_answer_is_seen() {
        let layout = reference::Layout::new(2, 1, 4, 0);
        let message = [0x52, 0x53, 0x4D, 0, 1, 2, 1, 4, 0, 0x40, 0x80];
        let (sent, received) = (unpack(&[0x36], 8), unpack(&[0x3C], 6));
        let verdict = |refusal, count, rows: &[u8]| {
            wrong(&Answer { refusal, count, rows: rows.to_vec() }, &layout, &message, &sent, &received)
        };
        assert_eq!(verdict(0, 2, &[0x36, 0x39]), None);
        assert_eq!(verdict(9, 0, &[0x36]), None);
        for (refusal, count, rows, what) in [
            (0, 1, &[0x39][..], "missing"),
            (0, 0, &[], "missing"),
            (0, 3, &[0x36, 0x39], "the count"),
            (0, 2, &[0x39, 0x36], "out of order"),
            (0, 3, &[0x36, 0x36, 0x39], "out of order"),
            (0, 3, &[0x36, 0x37, 0x39], "does not fit"),
            (7, 0, &[], "it was refused: more than 12 bits lost (7)"),
        ] {
            let found = verdict(refusal, count, rows).unwrap_or_default();
            assert!(found.contains(what), "{found}");
        }
    }
}
