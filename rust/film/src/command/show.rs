//! `film show`: what a file says, readable.

use std::fmt::Write as _;

use container::{Messages, Origin, Received, RECEIVED_MARK};
use dairyhour::MOST_FIELDS;

use super::write::cut_into;
use super::{decode_messages, drop, layout_of, plural};
use crate::args::Show;
use crate::trouble::{Result, Trouble};
use crate::{files, hex};

pub fn run(args: &Show) -> Result<bool> {
    let name = files::name(&args.file);
    let bytes = files::read(&args.file)?;
    let text = if bytes.starts_with(&RECEIVED_MARK) {
        let (received, origin) = Received::decode_identified(&bytes).map_err(|fault| Trouble::with(&name, fault))?;
        let panels = origin.map_or(1, |origin| origin.panels as usize);
        show_received(&received, origin, &chosen(args, received.rows.len(), panels)?)
    } else {
        let messages = decode_messages(&name, &bytes)?;
        show_messages(&messages, &chosen(args, messages.messages.len(), messages.head.panels as usize)?)?
    };
    files::say(&text, None)?;
    Ok(true)
}

/// The rows of the line that are asked for, of so many: all, those of a row of the film, or one panel of it.
fn chosen(args: &Show, count: usize, panels: usize) -> Result<Vec<usize>> {
    let is_chosen = |row: &usize| {
        args.row.map_or(true, |chosen| chosen == row / panels)
            && args.panel.map_or(true, |chosen| chosen == row % panels)
    };
    let rows: Vec<usize> = (0..count).filter(is_chosen).collect();
    match (args.row, args.panel) {
        (Some(row), panel) if rows.is_empty() => {
            let panel = panel.map_or(String::new(), |panel| format!(" panel {panel}"));
            let all = format!("{} of {}", plural(count / panels, "row"), plural(panels, "panel"));
            Err(Trouble::new(format!("there is no row {row}{panel}: the file has {all}")))
        }
        _ => Ok(rows),
    }
}

fn show_messages(messages: &Messages, rows: &[usize]) -> Result<String> {
    let head = &messages.head;
    let layout = layout_of(head.layout);
    let (l1, l2, nc, r) = (layout.l1, layout.l2, layout.nc, layout.r);
    let mut text = format!("film               {} × {}{}\n", head.width, head.height, cut_into(head));
    let cut = format!("{} of {} of {nc} bits", plural(l1, "block"), plural(l2, "chunk"));
    let _ = writeln!(text, "layout             {l1},{l2},{nc},{r}: {cut}, {}", plural(r, "check"));
    for row in rows {
        let mut fields = [0; MOST_FIELDS];
        dairyhour::read(&messages.messages[*row], &mut fields)
            .map_err(|refusal| Trouble::with("a message", refusal))?;
        let (blocks, rest) = fields.split_at(l1);
        let (strings, rest) = rest.split_at(l2);
        let _ = writeln!(text, "{}", head.name(*row));
        let _ = writeln!(text, "  block sums         {}", numbers(blocks));
        let _ = writeln!(text, "  chunk-string sums  {}", numbers(strings));
        let _ = writeln!(text, "  checks             {}", numbers(&rest[..r]));
    }
    Ok(text)
}

fn numbers(fields: &[u16]) -> String {
    fields.iter().map(u16::to_string).collect::<Vec<_>>().join(" ")
}

fn show_received(received: &Received, origin: Option<Origin>, rows: &[usize]) -> String {
    let mut text = drop::text(received);
    for row in rows {
        let found = &received.rows[*row];
        let name = received.name(*row, origin);
        let _ = writeln!(text, "{name}: {} {}", plural(found.bits.into(), "bit"), hex::text(&found.packed));
    }
    text
}
