//! `film drop`: a film sent over a simulated line.

use std::collections::BTreeMap;

use container::{Head, Messages, Origin, Received};

use super::{layout_of, loss_of, message_of, plural, read_film};
use crate::args::Drop;
use crate::json::{object, Json};
use crate::line::Line;
use crate::trouble::{Result, Trouble};
use crate::verdict::Loss;
use crate::{cut, files, histogram};

pub fn run(args: &Drop) -> Result<bool> {
    let line = match (args.rate, args.burst) {
        (Some(rate), _) => Line::Rate(rate),
        (_, Some(burst)) => Line::Burst(burst),
        _ => return Err(Trouble::new("either --rate or --burst is wanted")),
    };
    files::apart(&[&args.film], &[&args.output])?;
    let film = read_film(&args.film)?;
    let head = cut::head(&film, args.line.layout)?;
    let bits = head.row_bits();
    let sent = cut::rows(&film, &head);
    let rows = sent.iter().enumerate().map(|(row, packed)| line.send(packed, bits, args.seed, row)).collect();
    let received = Received { row_bits: bits as u16, rows };
    let file = if args.line.format == 1 { received.encode() } else { received.encode_identified(origin(head, &sent)?) };
    files::write(&args.output, &file)?;
    match (args.say.json, args.say.quiet) {
        (true, _) => files::say(&format!("{}\n", json(&received)), Some(&args.output))?,
        (false, false) => files::say(&text(&received), Some(&args.output))?,
        (false, true) => {}
    }
    Ok(true)
}

/// The film that these rows are sent of.
fn origin(head: Head, sent: &[Vec<u8>]) -> Result<Origin> {
    let layout = layout_of(head.layout);
    let messages = sent.iter().map(|row| message_of(layout, row)).collect::<Result<Vec<_>>>()?;
    Ok(Origin { panels: head.panels, identity: Messages { head, messages }.identity() })
}

/// How many rows lost how many bits, or have how many too many.
fn rows_by(received: &Received, bits: fn(Loss) -> Option<usize>) -> BTreeMap<usize, usize> {
    let mut rows = BTreeMap::new();
    for bits in (0..received.rows.len()).filter_map(|row| bits(loss_of(received, row))) {
        *rows.entry(bits).or_default() += 1;
    }
    rows
}

fn by_losses(received: &Received) -> BTreeMap<usize, usize> {
    rows_by(received, |loss| Some(loss.lost()).filter(|_| loss.too_many() == 0))
}

fn total(rows: &BTreeMap<usize, usize>) -> usize {
    rows.iter().map(|(bits, rows)| bits * rows).sum()
}

pub fn text(received: &Received) -> String {
    let line = |name: &str, rows: &BTreeMap<usize, usize>| {
        format!("{name}  {}{}\n", total(rows), histogram::words(&format!("{name}: rows"), rows))
    };
    let too_many = rows_by(received, |loss| Some(loss.too_many()).filter(|bits| *bits > 0));
    let more = if too_many.is_empty() { String::new() } else { line("bits too many", &too_many) };
    let lost = line("bits lost", &by_losses(received));
    format!("rows       {} of {}\n{lost}{more}", received.rows.len(), plural(received.row_bits.into(), "bit"))
}

fn json(received: &Received) -> Json {
    let losses = by_losses(received);
    let members = losses.iter().map(|(lost, rows)| (lost.to_string(), Json::Count(*rows))).collect();
    object([
        ("rows", Json::Count(received.rows.len())),
        ("row_bits", Json::Count(received.row_bits.into())),
        ("lost", Json::Count(total(&losses))),
        ("rows_by_losses", Json::Object(members)),
    ])
}
