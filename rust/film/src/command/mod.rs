//! One file for each command.

pub mod check;
pub mod drop;
pub mod list;
pub mod plot;
pub mod row;
pub mod show;
pub mod soak;
pub mod write;

use std::path::Path;

use container::{Messages, Origin, Received};
use dairyhour::{Layout, LONGEST_MESSAGE, MOST_FIELDS};

use crate::files;
use crate::picture::{self, Film};
use crate::trouble::{Result, Trouble};
use crate::verdict::Loss;

/// A film from a PBM file.
fn read_film(path: &Path) -> Result<Film> {
    picture::decode(&files::name(path), &files::read(path)?)
}

/// The messages from a file, each of which the library reads.
fn read_messages(path: &Path) -> Result<Messages> {
    decode_messages(&files::name(path), &files::read(path)?)
}

fn decode_messages(name: &str, bytes: &[u8]) -> Result<Messages> {
    let messages = Messages::decode(bytes).map_err(|fault| Trouble::with(name, fault))?;
    let mut fields = [0; MOST_FIELDS];
    for (row, message) in messages.messages.iter().enumerate() {
        if let Err(refusal) = dairyhour::read(message, &mut fields) {
            let byte = messages.place(row);
            let row = messages.head.name(row);
            return Err(Trouble::with(name, format!("byte {byte}: the message of {row} is {refusal}")));
        }
    }
    Ok(messages)
}

/// The received rows from a file, and the film that they are of where it says that.
fn read_received(path: &Path) -> Result<(Received, Option<Origin>)> {
    Received::decode_identified(&files::read(path)?).map_err(|fault| Trouble::with(files::name(path), fault))
}

/// How much of a row arrived.
fn loss_of(received: &Received, row: usize) -> Loss {
    Loss::new(received.row_bits.into(), received.rows[row].bits.into())
}

/// The message of a packed row.
fn message_of(layout: Layout, row: &[u8]) -> Result<Vec<u8>> {
    let mut message = vec![0; LONGEST_MESSAGE];
    let length = dairyhour::write(layout, row, &mut message).map_err(|refusal| Trouble::with("a row", refusal))?;
    message.truncate(length);
    Ok(message)
}

fn layout_of([l1, l2, nc, r]: [u8; 4]) -> Layout {
    Layout { l1: l1.into(), l2: l2.into(), nc: nc.into(), r: r.into() }
}

/// One thing or several: `1 row`, `2 rows`.
pub fn plural(count: usize, what: &str) -> String {
    format!("{count} {what}{}", if count == 1 { "" } else { "s" })
}
