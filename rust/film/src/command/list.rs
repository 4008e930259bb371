//! `film list`: every row that can have been sent.

use std::borrow::Cow;
use std::fmt::Write as _;
use std::mem;
use std::path::{Path, PathBuf};
use std::sync::Arc;
use std::time::Instant;

use container::{Messages, Origin, Received};

use super::{loss_of, plural, read_film, read_messages, read_received};
use crate::args::List;
use crate::json::Json;
use crate::lister::{row_bytes, Lister, Next, Outcome, Rows, Silence, Task};
use crate::lists::{Lists, PAD};
use crate::picture::Film;
use crate::progress::Progress;
use crate::status;
use crate::stop::{Stop, INTERRUPTED};
use crate::tally::Tally;
use crate::trouble::{Result, Trouble};
use crate::verdict::{Loss, Verdict};
use crate::{cut, files, hex, pbm};

/// How many rows that were not recovered alone are named in the report.
const NAMED: usize = 20;

/// How many seconds a row may take unless it is said.
const PATIENCE: f64 = 60.0;

pub fn run(args: &List) -> Result<u8> {
    let sent: Option<&Path> = args.sent.as_deref();
    let inputs: Vec<&Path> = [&args.messages, &args.received].into_iter().map(PathBuf::as_path).chain(sent).collect();
    let outputs: Vec<&Path> = [Some(&args.output), args.lists.as_ref(), args.mask.as_ref()]
        .into_iter()
        .flatten()
        .map(PathBuf::as_path)
        .collect();
    files::once(&inputs)?;
    let names = outputs.iter().flat_map(|path| [Some(path.to_path_buf()), files::unfinished(path)]);
    let names: Vec<PathBuf> = names.flatten().collect();
    files::apart(&inputs, &names.iter().map(PathBuf::as_path).collect::<Vec<_>>())?;
    let source = Arc::new(source(args)?);
    let mut lists = args.lists.as_deref().map(Lists::new).transpose()?;
    let stop = Stop::new(args.work.deadline)?;
    let (mut report, trouble) = list(args, &source, &stop, &mut lists)?;

    let interrupted = stop.is_interrupted() && report.tally.not_done > 0;
    if interrupted || trouble.is_some() {
        report.unfinished = outputs.iter().filter_map(|path| files::unfinished(path)).collect();
    }
    write(args, &report, lists)?;
    let output = outputs.into_iter().find(|path| files::is_output(path));
    match (args.say.json, args.say.quiet) {
        (true, _) => files::say(&format!("{}\n", report.json()), output)?,
        (false, false) => files::say(&report.text(), output)?,
        (false, true) => {}
    }
    match trouble {
        Some(trouble) => Err(trouble),
        None if interrupted => Ok(INTERRUPTED),
        None => Ok(status(report.tally.alone == report.tally.rows && report.missing == 0)),
    }
}

/// Writes all files, the film last: where it stands, the others do. Those of a run that was cut short stand beside the names
/// that were asked for, so that what stands under these is finished.
fn write(args: &List, report: &Report<'_>, lists: Option<Lists>) -> Result<()> {
    let name = |path: &Path| {
        let unfinished = files::unfinished(path).filter(|name| report.unfinished.contains(name));
        unfinished.unwrap_or_else(|| path.to_path_buf())
    };
    if let (Some(path), Some(lists)) = (&args.lists, lists) {
        lists.finish(&name(path))?;
    }
    if let Some(path) = &args.mask {
        files::write(&name(path), &pbm::encode(&report.mask()))?;
    }
    files::write(&name(&args.output), &pbm::encode(&report.film))
}

/// Lists all rows. The trouble is why rows were left out, where nothing could list them any more.
fn list<'a>(
    args: &List,
    source: &'a Arc<Source>,
    stop: &Stop,
    lists: &mut Option<Lists>,
) -> Result<(Report<'a>, Option<Trouble>)> {
    let count = source.received.rows.len();
    let mut report = Report::new(source);
    let mut take = |row: usize, listed: Listed| {
        let text = report.count(row, listed);
        let full = lists.as_mut().map_or(false, |lists| {
            lists.add(row, text);
            lists.is_full()
        });
        if full {
            Next::Hold
        } else {
            Next::Go
        }
    };
    let began = Instant::now();
    let run = Lister::new(&args.work, PATIENCE)?.run(
        source,
        count,
        stop,
        &mut Progress::new(count, args.say.quiet),
        &mut take,
    )?;
    let seconds = began.elapsed().as_secs_f64();
    for row in run.rest() {
        take(row, source.done(row, Outcome { answer: Err(Silence::NotDone), seconds: 0.0 }));
    }
    report.finish(seconds);
    Ok((report, run.trouble))
}

/// Reads the files, and sees whether they belong together.
fn source(args: &List) -> Result<Source> {
    let messages = read_messages(&args.messages)?;
    let (received, origin) = read_received(&args.received)?;
    fit(&messages, &received, origin).map_err(|what| Trouble::with(files::name(&args.received), what))?;
    let sent = args.sent.as_deref().map(|path| sent_film(&messages, path)).transpose()?;
    Ok(Source { messages, received, sent, lists: args.lists.is_some() })
}

/// Are these the received rows of the film that the messages belong to? Says why not.
fn fit(messages: &Messages, received: &Received, origin: Option<Origin>) -> std::result::Result<(), String> {
    let (rows, bits) = (messages.messages.len(), messages.head.row_bits());
    if bits != usize::from(received.row_bits) {
        let sent = received.row_bits;
        return Err(format!("the messages are for rows of {bits} bits, but rows of {sent} were sent"));
    }
    if rows != received.rows.len() {
        let arrived = plural(received.rows.len(), "row");
        return Err(format!("there are {}, but {arrived} arrived", plural(rows, "message")));
    }
    match origin {
        Some(Origin { identity, .. }) if identity != messages.identity() => {
            let film = messages.identity();
            Err(format!("these are rows of the film {identity:08X}, but the messages are those of the film {film:08X}"))
        }
        _ => Ok(()),
    }
}

/// The film that was sent.
fn sent_film(messages: &Messages, path: &Path) -> Result<Film> {
    let film = read_film(path)?;
    let head = &messages.head;
    if (film.width, film.height) != (head.width as usize, head.height as usize) {
        let size = format!("the film has {} × {}", film.width, film.height);
        return Err(Trouble::with(files::name(path), format!("{size}, its messages {} × {}", head.width, head.height)));
    }
    Ok(film)
}

/// Everything that rows are listed from.
struct Source {
    messages: Messages,
    received: Received,
    /// The film that was sent, where it is known.
    sent: Option<Film>,
    /// Is the text of the lists wanted?
    lists: bool,
}

/// What came out of a row.
struct Listed {
    verdict: Verdict,
    seconds: f64,
    /// The only row that can have been sent, or the first.
    first: Option<Vec<u8>>,
    /// Rows of the list that cannot have been sent.
    ruled_out: usize,
    /// The list was not refused, and lacks the row that was sent.
    missing: bool,
    /// The list as text, where it is wanted.
    text: String,
}

impl Rows for Source {
    type Done = Listed;

    fn task(&self, row: usize) -> Task<'_> {
        let received = &self.received.rows[row];
        let message = Cow::Borrowed(&self.messages.messages[row][..]);
        Task { message, bits: received.bits, row: Cow::Borrowed(&received.packed) }
    }

    /// Rows with ink in the pad cannot have been sent, and are left out.
    fn done(&self, row: usize, outcome: Outcome) -> Listed {
        let found = outcome.answer.as_ref().map_or(&[][..], |answer| &answer.rows);
        let found = || found.chunks_exact(row_bytes(&self.messages.messages[row]));
        let possible = || found().filter(|packed| !self.inks_pad(row, packed));
        let verdict = Verdict::new(&outcome, self.loss(row), possible().count());
        let listed = matches!(verdict, Verdict::Rows(_));
        let missing = |sent: &Film| {
            let sent = cut::row(sent, &self.messages.head, row);
            listed && !found().any(|packed| packed == sent)
        };
        Listed {
            verdict,
            seconds: outcome.seconds,
            first: possible().next().filter(|_| listed).map(<[u8]>::to_vec),
            ruled_out: found().count() - possible().count(),
            missing: self.sent.as_ref().map_or(false, missing),
            text: if self.lists { self.text(row, &outcome, found()) } else { String::new() },
        }
    }

    fn bytes(&self, done: &Listed) -> usize {
        mem::size_of::<Listed>() + done.first.as_ref().map_or(0, Vec::len) + done.text.len()
    }
}

impl Source {
    fn inks_pad(&self, row: usize, packed: &[u8]) -> bool {
        cut::inks_pad(&self.messages.head, row, packed)
    }

    fn loss(&self, row: usize) -> Loss {
        loss_of(&self.received, row)
    }

    fn all_lost(&self) -> usize {
        (0..self.received.rows.len()).map(|row| self.loss(row).lost()).sum()
    }

    fn name(&self, row: usize) -> String {
        self.messages.head.name(row)
    }

    /// A list: a line that says which row, how many of its bits arrived and what the library answered, then its rows, each in
    /// capital hexadecimal on a line of its own, and behind it `pad` if it has ink there.
    fn text<'a>(&self, row: usize, outcome: &Outcome, found: impl Iterator<Item = &'a [u8]>) -> String {
        let count = outcome.answer.as_ref().map_or(0, |answer| answer.count);
        let bits = self.received.rows[row].bits;
        let verdict = Verdict::new(outcome, self.loss(row), count);
        let mut text = format!("{} received {bits} {}\n", self.name(row), verdict.code());
        for packed in found {
            hex::push(&mut text, packed);
            text.push_str(if self.inks_pad(row, packed) { PAD } else { "" });
            text.push('\n');
        }
        text
    }
}

/// Everything that is said of the rows, and the film that is made of them.
struct Report<'a> {
    source: &'a Source,
    tally: Tally,
    /// The rows that can have been sent, the first where there are several, and white where there is none.
    film: Film,
    /// The rows that were not recovered alone.
    open: Vec<(usize, Verdict)>,
    missing: usize,
    ruled_out: usize,
    /// The files of a run that was cut short.
    unfinished: Vec<PathBuf>,
}

impl<'a> Report<'a> {
    fn new(source: &'a Source) -> Report<'a> {
        let head = &source.messages.head;
        let film = Film::blank(head.width as usize, head.height as usize);
        let (open, unfinished) = (Vec::new(), Vec::new());
        Report { source, tally: Tally::default(), film, open, missing: 0, ruled_out: 0, unfinished }
    }

    /// Counts a row, and answers the text of its list.
    fn count(&mut self, row: usize, listed: Listed) -> String {
        self.tally.count(row, listed.verdict, listed.seconds);
        self.missing += usize::from(listed.missing);
        self.ruled_out += listed.ruled_out;
        if listed.verdict != Verdict::Rows(1) {
            self.open.push((row, listed.verdict));
        }
        if let Some(first) = &listed.first {
            cut::put(&mut self.film, &self.source.messages.head, row, first);
        }
        listed.text
    }

    /// All rows were counted, in the order in which they came.
    fn finish(&mut self, seconds: f64) {
        self.tally.seconds = seconds;
        self.open.sort_by_key(|(row, _)| *row);
    }

    /// A film that is black where the rows are that were not recovered alone.
    fn mask(&self) -> Film {
        let head = &self.source.messages.head;
        let black = vec![0xFF; container::bytes_for(head.row_bits())];
        let mut mask = Film::blank(self.film.width, self.film.height);
        for (row, _) in &self.open {
            cut::put(&mut mask, head, *row, &black);
        }
        mask
    }

    /// How many lists lack the row that was sent, where that is known.
    fn missing(&self) -> Option<usize> {
        self.source.sent.as_ref().map(|_| self.missing)
    }

    fn unfinished(&self) -> Vec<String> {
        self.unfinished.iter().map(|path| path.display().to_string()).collect()
    }

    fn text(&self) -> String {
        let head = &self.source.messages.head;
        let [l1, l2, nc, r] = head.layout;
        let mut text = format!(
            "rows               {} of {}, layout {l1},{l2},{nc},{r}\nbits lost          {}\n{}",
            self.tally.rows,
            plural(head.row_bits(), "bit"),
            self.source.all_lost(),
            self.tally.text(&|row| self.source.name(row))
        );
        if self.ruled_out > 0 {
            let rows = plural(self.ruled_out, "listed row");
            let _ = writeln!(text, "ruled out          {rows} with ink in the pad");
        }
        if let Some(missing) = self.missing() {
            let _ = writeln!(text, "sent but missing   {missing}");
        }
        if !self.unfinished.is_empty() {
            let _ = writeln!(text, "unfinished         {}", self.unfinished().join(", "));
        }
        for (row, verdict) in self.open.iter().take(NAMED) {
            let _ = writeln!(text, "{}: {}, {}", self.source.name(*row), verdict.words(), self.source.loss(*row));
        }
        if self.open.len() > NAMED {
            let more = plural(self.open.len() - NAMED, "more row");
            let _ = writeln!(text, "and {more} not recovered alone");
        }
        text
    }

    fn json(&self) -> Json {
        let panels = self.source.messages.head.panels as usize;
        let name = |row: usize| vec![("row", Json::Count(row / panels)), ("panel", Json::Count(row % panels))];
        let open = |(row, verdict): &(usize, Verdict)| {
            let loss = self.source.loss(*row);
            let more = [
                ("lost", Json::Count(loss.lost())),
                ("too_many", Json::Count(loss.too_many())),
                ("outcome", Json::Text(verdict.code())),
            ];
            let members = name(*row).into_iter().chain(more);
            Json::Object(members.map(|(name, value)| (String::from(name), value)).collect())
        };
        let mut members = vec![
            (String::from("rows"), Json::Count(self.tally.rows)),
            (String::from("row_bits"), Json::Count(self.source.messages.head.row_bits())),
            (String::from("lost"), Json::Count(self.source.all_lost())),
        ];
        members.extend(self.tally.json(&name));
        members.push((String::from("ruled_out"), Json::Count(self.ruled_out)));
        if let Some(missing) = self.missing() {
            members.push((String::from("missing"), Json::Count(missing)));
        }
        let unfinished = self.unfinished().into_iter().map(Json::Text).collect();
        members.push((String::from("unfinished"), Json::List(unfinished)));
        members.push((String::from("open"), Json::List(self.open.iter().map(open).collect())));
        Json::Object(members)
    }
}
