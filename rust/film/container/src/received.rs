//! The rows that arrived of one film.

use dairyhour::LONGEST_ROW;

use crate::cursor::{seal, Cursor};
use crate::fault::Fault;
use crate::{bytes_for, row_name, IDENTIFIED, RECEIVED_MARK, VERSION};

/// A row that arrived: how many bits it has, and the bits, packed first bit highest with spare bits 0.
#[derive(Clone, Debug, PartialEq, Eq)]
pub struct Row {
    pub bits: u16,
    pub packed: Vec<u8>,
}

/// The rows that arrived of a film, in the order in which they were sent.
#[derive(Clone, Debug, PartialEq, Eq)]
pub struct Received {
    /// n, the bits that each row had when it was sent.
    pub row_bits: u16,
    pub rows: Vec<Row>,
}

/// The film that rows were sent of, as far as a file of version 2 says it.
#[derive(Clone, Copy, Debug, PartialEq, Eq)]
pub struct Origin {
    /// Panels side by side, at least 1.
    pub panels: u32,
    /// The checksum of all messages of the film.
    pub identity: u32,
}

impl Received {
    /// The bytes of the file of version 1. Meant for rows that `decode` takes back: each has the bytes that its bits need.
    pub fn encode(&self) -> Vec<u8> {
        seal(self.encode_as(VERSION))
    }

    /// The bytes of the file of version 2, which names the film.
    pub fn encode_identified(&self, origin: Origin) -> Vec<u8> {
        let mut bytes = self.encode_as(IDENTIFIED);
        bytes.extend(origin.panels.to_be_bytes());
        bytes.extend(origin.identity.to_be_bytes());
        seal(bytes)
    }

    fn encode_as(&self, version: u16) -> Vec<u8> {
        let mut bytes = Vec::new();
        bytes.extend(RECEIVED_MARK);
        bytes.extend(version.to_be_bytes());
        bytes.extend(self.row_bits.to_be_bytes());
        bytes.extend((self.rows.len() as u32).to_be_bytes());
        for row in &self.rows {
            bytes.extend(row.bits.to_be_bytes());
            bytes.extend(&row.packed);
        }
        bytes
    }

    pub fn decode(bytes: &[u8]) -> Result<Received, Fault> {
        Received::decode_identified(bytes).map(|(received, _)| received)
    }

    /// The rows, and the film that they are of where the file says it.
    pub fn decode_identified(bytes: &[u8]) -> Result<(Received, Option<Origin>), Fault> {
        let mut cursor = Cursor::open(bytes, RECEIVED_MARK, "received rows")?;
        let place = cursor.at();
        let row_bits = cursor.number16("the bits of a row")?;
        if !(1..=LONGEST_ROW).contains(&usize::from(row_bits)) {
            return Err(Fault::new(place, format!("rows of {row_bits} bits were sent, but a row has 1 to 2,040")));
        }
        let count = cursor.number32("the number of rows")?;
        let mut rows = Vec::new();
        for row in 0..count {
            rows.push(decode_row(&mut cursor, row)?);
        }
        let origin = if cursor.identified() { Some(decode_origin(&mut cursor, rows.len())?) } else { None };
        cursor.close()?;
        Ok((Received { row_bits, rows }, origin))
    }

    /// What a row is called; without the number of panels, by its place on the line.
    pub fn name(&self, row: usize, origin: Option<Origin>) -> String {
        origin.map_or_else(|| format!("row {row} of the line"), |origin| row_name(row, origin.panels as usize))
    }
}

fn decode_origin(cursor: &mut Cursor<'_>, rows: usize) -> Result<Origin, Fault> {
    let place = cursor.at();
    let panels = cursor.number32("the number of panels")?;
    if panels == 0 || rows % panels as usize != 0 {
        return Err(Fault::new(place, format!("the number of panels is {panels}, but there are {rows} rows")));
    }
    Ok(Origin { panels, identity: cursor.number32("the identity of the film")? })
}

fn decode_row(cursor: &mut Cursor<'_>, row: u32) -> Result<Row, Fault> {
    // Only a row with which something is wrong is named.
    let named = |fault: Fault| Fault::new(fault.byte, format!("{} row {row} of the line", fault.what));
    let bits = cursor.number16("the number of bits of").map_err(named)?;
    let packed = cursor.take(bytes_for(usize::from(bits)), "the bits of").map_err(named)?.to_vec();
    let spare = 0xFF_u8.checked_shr(u32::from(bits % 8)).filter(|_| bits % 8 != 0).unwrap_or(0);
    match packed.last() {
        Some(last) if last & spare != 0 => {
            Err(Fault::new(cursor.at() - 1, format!("a bit beyond the {bits} bits of row {row} of the line is 1")))
        }
        _ => Ok(Row { bits, packed }),
    }
}

#[cfg(test)]
mod tests {
    use super::*;
    use crate::damage;

    /// An example: two rows of 8 bits, of which 6 and 8 arrived.
    fn example() -> Received {
        let rows = vec![Row { bits: 6, packed: vec![0x3C] }, Row { bits: 8, packed: vec![0x81] }];
        Received { row_bits: 8, rows }
    }

    fn refused(bytes: &[u8]) -> Fault {
        Received::decode(bytes).unwrap_err()
    }

    #[test]
    fn what_is_encoded_is_decoded() {
        let file = example().encode();
        assert_eq!(file.len(), 12 + 6 + 4);
        assert_eq!(Received::decode(&file), Ok(example()));
        let none = Received { row_bits: 2040, rows: vec![Row { bits: 0, packed: vec![] }] };
        assert_eq!(Received::decode(&none.encode()), Ok(none));
    }

    #[test]
    fn each_bad_byte_is_named() {
        let mut spare = example();
        spare.rows[0].packed[0] |= 1;
        assert_eq!(refused(&spare.encode()), Fault::new(14, "a bit beyond the 6 bits of row 0 of the line is 1"));
        let wide = Received { row_bits: 2041, ..example() };
        assert_eq!(refused(&wide.encode()).byte, 6);
        let bare = Received { row_bits: 0, ..example() };
        assert_eq!(refused(&bare.encode()).byte, 6);
        let mut file = example().encode();
        file[3] = b'M';
        assert_eq!(refused(&file).byte, 3);
        file[3] = b'X';
        file[5] = 9;
        assert_eq!(refused(&file), Fault::new(4, "version 9, but only versions 1 and 2 are known"));
    }

    /// Version 2 is version 1 with another number, and the number of panels and the identity at the end.
    #[test]
    fn films_are_identified() {
        let origin = Origin { panels: 2, identity: 0x1234_5678 };
        let (old, file) = (example().encode(), example().encode_identified(origin));
        assert_eq!(file[6..old.len() - 4], old[6..old.len() - 4]);
        assert_eq!((&file[4..6], file.len()), (&[0, 2][..], old.len() + 8));
        assert_eq!(Received::decode_identified(&file), Ok((example(), Some(origin))));
        assert_eq!(Received::decode_identified(&old), Ok((example(), None)));
        assert_eq!(example().name(1, Some(origin)), "row 0 panel 1");
        assert_eq!(example().name(1, None), "row 1 of the line");
        damage::is_refused(&file, refused);
        for panels in [0, 3] {
            let fault = refused(&example().encode_identified(Origin { panels, ..origin }));
            assert_eq!(fault, Fault::new(18, format!("the number of panels is {panels}, but there are 2 rows")));
        }
    }

    #[test]
    fn no_damaged_file_is_read() {
        damage::is_refused(&example().encode(), refused);
    }
}
