//! `film write`: the messages of a film.

use container::{Head, Messages};

use super::{layout_of, message_of, plural, read_film};
use crate::args::Write;
use crate::json::{object, Json};
use crate::trouble::Result;
use crate::{cut, files};

pub fn run(args: &Write) -> Result<bool> {
    files::apart(&[&args.film], &[&args.output])?;
    let film = read_film(&args.film)?;
    let head = cut::head(&film, args.line.layout)?;
    let layout = layout_of(head.layout);
    let messages = cut::rows(&film, &head).iter().map(|row| message_of(layout, row)).collect::<Result<Vec<_>>>()?;
    let file = Messages { head, messages };
    let bytes = if args.line.format == 1 { file.encode() } else { file.encode_identified() };
    files::write(&args.output, &bytes)?;
    match (args.say.json, args.say.quiet) {
        (true, _) => files::say(&format!("{}\n", json(&file, bytes.len())), Some(&args.output))?,
        (false, false) => files::say(&text(&file, bytes.len()), Some(&args.output))?,
        (false, true) => {}
    }
    Ok(true)
}

/// The bytes of a message; all messages of a layout have the same length.
fn message_bytes(file: &Messages) -> usize {
    file.messages.first().map_or(0, Vec::len)
}

fn text(file: &Messages, bytes: usize) -> String {
    let head = &file.head;
    let [l1, l2, nc, r] = head.layout;
    format!(
        "film       {} × {}{}\nlayout     {l1},{l2},{nc},{r}: rows of {} bits, {}\nmessages   {} of {} bytes, {} bytes in all\n",
        head.width,
        head.height,
        cut_into(head),
        head.row_bits(),
        plural(r.into(), "check"),
        file.messages.len(),
        message_bytes(file),
        bytes,
    )
}

/// What is said of panels and pad, where there are any.
pub fn cut_into(head: &Head) -> String {
    let panels = if head.panels > 1 { format!(", {} panels", head.panels) } else { String::new() };
    let pad = if head.pad > 0 { format!(", padded by {}", plural(head.pad.into(), "column")) } else { String::new() };
    panels + &pad
}

fn json(file: &Messages, bytes: usize) -> Json {
    let head = &file.head;
    object([
        ("width", Json::Count(head.width as usize)),
        ("height", Json::Count(head.height as usize)),
        ("layout", Json::List(head.layout.iter().map(|number| Json::Count(usize::from(*number))).collect())),
        ("row_bits", Json::Count(head.row_bits())),
        ("panels", Json::Count(head.panels as usize)),
        ("pad", Json::Count(head.pad.into())),
        ("messages", Json::Count(file.messages.len())),
        ("message_bytes", Json::Count(message_bytes(file))),
        ("bytes", Json::Count(bytes)),
    ])
}
