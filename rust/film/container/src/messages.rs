//! The side messages of one film.

use dairyhour::{LONGEST_MESSAGE, LONGEST_ROW};

use crate::crc::crc32_of;
use crate::cursor::{seal, Cursor};
use crate::fault::Fault;
use crate::{row_name, IDENTIFIED, MESSAGES_MARK, VERSION};

/// The bytes in front of the first message.
const HEAD: usize = 30;

/// The bytes of a side message's own mark, version and layout.
const MESSAGE_HEAD: usize = 9;

/// How a film is sent: its size, the layout of its rows on the line, and how its columns are shared among them.
#[derive(Clone, Copy, Debug, PartialEq, Eq)]
pub struct Head {
    /// Columns of the film, at least 1.
    pub width: u32,
    /// Rows of the film, at least 1.
    pub height: u32,
    /// l1, l2, nc and r of every message.
    pub layout: [u8; 4],
    /// Panels side by side, each as wide as a row of the line.
    pub panels: u32,
    /// Columns of zeros on the right of the last panel that are no part of the film.
    pub pad: u16,
}

impl Head {
    /// The head of a film of this size whose rows have this layout. `None` where the film has no rows or columns, the
    /// layout no bits or more than the longest row, or the film more rows on the line than a number of 32 bits holds.
    pub fn new(width: u32, height: u32, layout: [u8; 4]) -> Option<Head> {
        let n = u64::from(row_bits(layout)?);
        let panels = (u64::from(width) + n - 1) / n;
        let pad = panels * n - u64::from(width);
        let head = Head { width, height, layout, panels: panels.try_into().ok()?, pad: pad.try_into().ok()? };
        let fit = width > 0 && height > 0 && head.height.checked_mul(head.panels).is_some();
        fit.then_some(head)
    }

    /// What a row of the line is called: by its row of the film, and its panel where there are several.
    pub fn name(&self, row: usize) -> String {
        row_name(row, self.panels as usize)
    }

    /// n, the bits of a row of the line.
    pub fn row_bits(&self) -> usize {
        row_bits(self.layout).map_or(0, usize::from)
    }

    /// The rows of the line: the panels of the film's first row from left to right, then those of its second row, ..
    pub fn rows(&self) -> usize {
        self.height as usize * self.panels as usize
    }
}

/// l1 × l2 × nc, from 1 to what the longest row has.
fn row_bits([l1, l2, nc, _]: [u8; 4]) -> Option<u16> {
    let bits = usize::from(l1) * usize::from(l2) * usize::from(nc);
    (1..=LONGEST_ROW).contains(&bits).then_some(bits as u16)
}

/// The messages of a film, one for each row of the line in the order of the rows.
#[derive(Clone, Debug, PartialEq, Eq)]
pub struct Messages {
    pub head: Head,
    pub messages: Vec<Vec<u8>>,
}

impl Messages {
    /// The bytes of the file of version 1. Meant for messages that `decode` takes back: as many as the head says, each of
    /// them a message of the head's layout.
    pub fn encode(&self) -> Vec<u8> {
        seal(self.encode_as(VERSION))
    }

    /// The bytes of the file of version 2, which names the film.
    pub fn encode_identified(&self) -> Vec<u8> {
        let mut bytes = self.encode_as(IDENTIFIED);
        bytes.extend(self.identity().to_be_bytes());
        seal(bytes)
    }

    /// What tells this film from others: the checksum of all messages.
    pub fn identity(&self) -> u32 {
        crc32_of(self.messages.iter().map(Vec::as_slice))
    }

    fn encode_as(&self, version: u16) -> Vec<u8> {
        let head = &self.head;
        let mut bytes = Vec::new();
        bytes.extend(MESSAGES_MARK);
        bytes.extend(version.to_be_bytes());
        bytes.extend(head.width.to_be_bytes());
        bytes.extend(head.height.to_be_bytes());
        bytes.extend(head.layout);
        bytes.extend((head.row_bits() as u16).to_be_bytes());
        bytes.extend(head.panels.to_be_bytes());
        bytes.extend(head.pad.to_be_bytes());
        bytes.extend((self.messages.len() as u32).to_be_bytes());
        for message in &self.messages {
            bytes.extend((message.len() as u16).to_be_bytes());
            bytes.extend(message);
        }
        bytes
    }

    /// Reads a file. Each message is held to its own mark, version and layout; whether its sums are in range is left to
    /// the library that reads it.
    pub fn decode(bytes: &[u8]) -> Result<Messages, Fault> {
        let mut cursor = Cursor::open(bytes, MESSAGES_MARK, "the messages of a film")?;
        let head = decode_head(&mut cursor)?;
        let mut messages = Vec::new();
        for row in 0..head.rows() {
            messages.push(decode_message(&mut cursor, &head, row)?);
        }
        let file = Messages { head, messages };
        if cursor.identified() {
            file.expect_identity(&mut cursor)?;
        }
        cursor.close()?;
        Ok(file)
    }

    fn expect_identity(&self, cursor: &mut Cursor<'_>) -> Result<(), Fault> {
        let place = cursor.at();
        let (found, due) = (cursor.number32("the identity of the film")?, self.identity());
        if found == due {
            return Ok(());
        }
        Err(Fault::new(place, format!("the identity of the film is {found:08X}, but its messages give {due:08X}")))
    }

    /// The byte of the file at which message `row` starts, behind its length.
    pub fn place(&self, row: usize) -> usize {
        HEAD + 2 + self.messages.iter().take(row).map(|message| message.len() + 2).sum::<usize>()
    }
}

fn decode_head(cursor: &mut Cursor<'_>) -> Result<Head, Fault> {
    let width = above_zero(cursor, "the width")?;
    let height = above_zero(cursor, "the height")?;
    let place = cursor.at();
    let found = cursor.take(4, "the layout")?;
    let layout = [found[0], found[1], found[2], found[3]];
    let bits = row_bits(layout).ok_or_else(|| {
        Fault::new(place, format!("no row has the layout {layout:?}: l1 × l2 × nc must be from 1 to 2,040"))
    })?;
    let head = Head::new(width, height, layout)
        .ok_or_else(|| Fault::new(6, format!("a film of {width} × {height} has too many rows of {bits} bits")))?;
    expect(cursor, 2, "the bits of a row", u64::from(bits))?;
    expect(cursor, 4, "the number of panels", u64::from(head.panels))?;
    expect(cursor, 2, "the pad", u64::from(head.pad))?;
    expect(cursor, 4, "the number of messages", head.rows() as u64)?;
    Ok(head)
}

/// A number of four bytes that is not 0.
fn above_zero(cursor: &mut Cursor<'_>, what: &str) -> Result<u32, Fault> {
    let place = cursor.at();
    match cursor.number32(what)? {
        0 => Err(Fault::new(place, format!("{what} is 0"))),
        number => Ok(number),
    }
}

/// A number of so many bytes that follows from what was read before.
fn expect(cursor: &mut Cursor<'_>, bytes: usize, what: &str, due: u64) -> Result<(), Fault> {
    let place = cursor.at();
    let found = cursor.take(bytes, what)?.iter().fold(0, |high, byte| high << 8 | u64::from(*byte));
    if found == due {
        return Ok(());
    }
    Err(Fault::new(place, format!("{what} is {found}, but the size of the film and the layout give {due}")))
}

fn decode_message(cursor: &mut Cursor<'_>, head: &Head, row: usize) -> Result<Vec<u8>, Fault> {
    // Only a message with which something is wrong is named.
    let what = || format!("the message of {}", head.name(row));
    let named = |fault: Fault| Fault::new(fault.byte, format!("{} {}", fault.what, head.name(row)));
    let place = cursor.at();
    let length = usize::from(cursor.number16("the length of the message of").map_err(named)?);
    if !(MESSAGE_HEAD..=LONGEST_MESSAGE).contains(&length) {
        let what = format!("{} has {length} bytes, but a message has {MESSAGE_HEAD} to {LONGEST_MESSAGE}", what());
        return Err(Fault::new(place, what));
    }
    let start = cursor.at();
    let message = cursor.take(length, "the message of").map_err(named)?;
    let layout = head.layout;
    let [l1, l2, nc, r] = layout;
    let due = [b'R', b'S', b'M', 0, 1, l1, l2, nc, r];
    match (0..MESSAGE_HEAD).find(|at| message[*at] != due[*at]) {
        None => Ok(message.to_vec()),
        Some(at) if at < 3 => Err(Fault::new(start + at, format!("{} does not start with the mark RSM", what()))),
        Some(at) if at < 5 => Err(Fault::new(start + at, format!("{} is not of version 1", what()))),
        Some(at) => Err(Fault::new(start + at, format!("{} has another layout than the film, {layout:?}", what()))),
    }
}

#[cfg(test)]
mod tests {
    use super::*;
    use crate::damage;

    /// An example: a film of 7 columns and 2 rows under the layout 2, 1, 4, 0.
    fn example() -> Messages {
        let message = |low| vec![0x52, 0x53, 0x4D, 0, 1, 2, 1, 4, 0, 0x40, low];
        let head = Head::new(7, 2, [2, 1, 4, 0]).unwrap();
        Messages { head, messages: vec![message(0x80), message(0x00)] }
    }

    fn refused(bytes: &[u8]) -> Fault {
        Messages::decode(bytes).unwrap_err()
    }

    /// The example with other bytes at a place, and the checksum that fits them.
    fn with(place: usize, bytes: &[u8]) -> Vec<u8> {
        let mut file = example().encode();
        file.truncate(file.len() - 4);
        file[place..place + bytes.len()].copy_from_slice(bytes);
        seal(file)
    }

    #[test]
    fn what_is_encoded_is_decoded() {
        let file = example().encode();
        assert_eq!(file.len(), 30 + 2 * 13 + 4);
        assert_eq!(Messages::decode(&file), Ok(example()));
        assert_eq!(example().place(1), 30 + 13 + 2);
    }

    /// Version 2 is version 1 with another number, and the checksum of all messages at the end.
    #[test]
    fn films_are_identified() {
        let (old, file) = (example().encode(), example().encode_identified());
        assert_eq!(file[6..old.len() - 4], old[6..old.len() - 4]);
        assert_eq!(file[4..6], [0, 2]);
        let all: Vec<u8> = example().messages.concat();
        assert_eq!(file[old.len() - 4..old.len()], crate::crc32(&all).to_be_bytes());
        assert_eq!(Messages::decode(&file), Ok(example()));
        damage::is_refused(&file, refused);
        let mut other = file[..file.len() - 4].to_vec();
        other[old.len() - 1] ^= 1;
        let fault = refused(&seal(other));
        assert_eq!(fault.byte, old.len() - 4);
        assert!(fault.what.starts_with("the identity of the film is "), "{fault}");
    }

    #[test]
    fn rows_and_panels_are_named() {
        let names = |width| {
            let head = Head::new(width, 2, [2, 1, 4, 0]).unwrap();
            (0..head.rows()).map(|row| head.name(row)).collect::<Vec<_>>()
        };
        assert_eq!(names(8), ["row 0", "row 1"]);
        assert_eq!(names(9), ["row 0 panel 0", "row 0 panel 1", "row 1 panel 0", "row 1 panel 1"]);
    }

    #[test]
    fn panels_and_pad() {
        let head = Head::new(5000, 3, [15, 17, 8, 16]).unwrap();
        assert_eq!((head.panels, head.pad, head.row_bits(), head.rows()), (3, 1120, 2040, 9));
        let head = Head::new(2040, 3, [15, 17, 8, 16]).unwrap();
        assert_eq!((head.panels, head.pad), (1, 0));
        assert_eq!(Head::new(0, 3, [15, 17, 8, 16]), None);
        assert_eq!(Head::new(3, 0, [15, 17, 8, 16]), None);
        assert_eq!(Head::new(3, 3, [0, 17, 8, 16]), None);
        assert_eq!(Head::new(3, 3, [16, 17, 8, 16]), None);
        assert_eq!(Head::new(u32::MAX, u32::MAX, [1, 1, 3, 0]), None);
    }

    #[test]
    fn each_bad_byte_is_named() {
        for (place, bytes, byte, what) in [
            (0, &b"DHRX"[..], 2, "no file of the messages"),
            (4, &[0, 3], 4, "version 3, but only versions 1 and 2 are known"),
            (4, &[0, 2], 56, "the identity of the film is"),
            (6, &[0; 4], 6, "the width is 0"),
            (10, &[0; 4], 10, "the height is 0"),
            (14, &[2, 0, 4, 0], 14, "no row has the layout"),
            (6, &[0xFF; 8], 6, "too many rows"),
            (18, &[0, 9], 18, "the bits of a row is 9"),
            (20, &[0, 0, 0, 2], 20, "the number of panels is 2"),
            (24, &[0, 0], 24, "the pad is 0"),
            (29, &[3], 26, "the number of messages is 3"),
        ] {
            let fault = refused(&with(place, bytes));
            assert_eq!(fault.byte, byte, "{fault}");
            assert!(fault.what.contains(what), "{fault}");
        }
    }

    #[test]
    fn each_bad_message_is_named() {
        for (place, bytes, byte, what) in [
            (30, &[0, 8][..], 30, "the message of row 0 has 8 bytes"),
            (43, &[0, 155], 43, "the message of row 1 has 155 bytes"),
            (47, &[0], 47, "the message of row 1 does not start with the mark"),
            (49, &[0], 49, "the message of row 1 is not of version 1"),
            (52, &[3], 52, "the message of row 1 has another layout"),
        ] {
            let fault = refused(&with(place, bytes));
            assert!(fault.what.contains(what), "{fault}");
            assert_eq!(fault.byte, byte, "{fault}");
        }
    }

    #[test]
    fn no_damaged_file_is_read() {
        let file = example().encode();
        damage::is_refused(&file, refused);
        let mut damaged = file.clone();
        damaged[41] ^= 1;
        assert_eq!(refused(&damaged).byte, file.len() - 4);
    }
}
