//! `film check`: two films bit by bit, or a film against its messages.

use container::MESSAGES_MARK;

use super::{decode_messages, layout_of, message_of, plural, read_film};
use crate::args::Check;
use crate::json::{object, Json};
use crate::picture::{self, Film};
use crate::trouble::Result;
use crate::{cut, files};

pub fn run(args: &Check) -> Result<bool> {
    files::once(&[&args.film, &args.other])?;
    let film = read_film(&args.film)?;
    let bytes = files::read(&args.other)?;
    let name = files::name(&args.other);
    let found = if bytes.starts_with(&MESSAGES_MARK) {
        with_messages(&film, &name, &bytes)?
    } else {
        films(&film, &picture::decode(&name, &bytes)?)
    };
    match (args.say.json, args.say.quiet) {
        (true, _) => files::say(&format!("{}\n", found.json()), None)?,
        (false, false) => files::say(&found.text(), None)?,
        (false, true) => {}
    }
    Ok(found.same())
}

/// What a comparison found.
struct Found {
    /// What was compared, and how many of them.
    compared: String,
    /// The two sizes, where they differ. Nothing else is compared then.
    sizes: Option<[String; 2]>,
    /// The rows that differ, and for two films in how many bits.
    rows: Vec<(String, usize)>,
}

/// A film and something of another size are not the same.
fn sizes(film: &Film, width: usize, height: usize) -> Option<Found> {
    let others = (film.width, film.height) != (width, height);
    let sizes = [format!("{} × {}", film.width, film.height), format!("{width} × {height}")];
    others.then(|| Found { compared: String::from("sizes"), sizes: Some(sizes), rows: vec![] })
}

fn films(film: &Film, other: &Film) -> Found {
    if let Some(found) = sizes(film, other.width, other.height) {
        return found;
    }
    let mut rows = Vec::new();
    for row in 0..film.height {
        let is_other = |column: &usize| film.bit(row, *column) != other.bit(row, *column);
        let columns: Vec<usize> = (0..film.width).filter(is_other).collect();
        if let Some(first) = columns.first() {
            let bits = columns.len();
            let what = format!("{} {}", plural(bits, "bit"), differ(bits));
            rows.push((format!("row {row}: {what}, first at column {first}"), bits));
        }
    }
    let compared = format!("{} of {}", plural(film.height, "row"), plural(film.width, "bit"));
    Found { compared, sizes: None, rows }
}

/// What one thing does, or several do.
fn differ(count: usize) -> &'static str {
    if count == 1 {
        "differs"
    } else {
        "differ"
    }
}

fn with_messages(film: &Film, name: &str, bytes: &[u8]) -> Result<Found> {
    let messages = decode_messages(name, bytes)?;
    let head = &messages.head;
    if let Some(found) = sizes(film, head.width as usize, head.height as usize) {
        return Ok(found);
    }
    let mut rows = Vec::new();
    for (row, (packed, message)) in cut::rows(film, head).iter().zip(&messages.messages).enumerate() {
        if message_of(layout_of(head.layout), packed)? != *message {
            rows.push((format!("{}: another message", head.name(row)), 0));
        }
    }
    Ok(Found { compared: plural(messages.messages.len(), "message"), sizes: None, rows })
}

impl Found {
    fn same(&self) -> bool {
        self.sizes.is_none() && self.rows.is_empty()
    }

    fn text(&self) -> String {
        if let Some([film, other]) = &self.sizes {
            return format!("the sizes differ: the film has {film}, the other {other}\n");
        }
        let lines: String = self.rows.iter().map(|(line, _)| format!("{line}\n")).collect();
        match self.rows.len() {
            0 => format!("the same: {}\n", self.compared),
            count => format!("{lines}{} of {} {}\n", plural(count, "row"), self.compared, differ(count)),
        }
    }

    fn json(&self) -> Json {
        let sizes = self.sizes.iter().flatten().map(|size| Json::Text(size.clone())).collect();
        object([
            ("compared", Json::Text(self.compared.clone())),
            ("same", Json::Flag(self.same())),
            ("different_sizes", Json::List(sizes)),
            ("different_rows", Json::Count(self.rows.len())),
            ("different_bits", Json::Count(self.rows.iter().map(|(_, bits)| bits).sum())),
            ("differences", Json::List(self.rows.iter().map(|(line, _)| Json::Text(line.clone())).collect())),
        ])
    }
}
