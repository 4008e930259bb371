//! A film as a picture of bits, 1 for black.

use container::{bytes_for, MESSAGES_MARK, RECEIVED_MARK};

use crate::trouble::{Result, Trouble};
use crate::{from_png, from_tiff, pbm};

/// Rows of bits, each packed first bit highest, spare bits 0.
#[derive(Clone, Debug, PartialEq, Eq)]
pub struct Film {
    pub width: usize,
    pub height: usize,
    packed: Vec<u8>,
}

impl Film {
    /// A film of these packed rows. What their spare bits are does not matter.
    pub fn new(width: usize, height: usize, mut packed: Vec<u8>) -> Film {
        let length = bytes_for(width);
        debug_assert_eq!(packed.len(), length * height);
        if width % 8 != 0 {
            packed.chunks_exact_mut(length).for_each(|row| row[length - 1] &= !(0xFF >> (width % 8)));
        }
        Film { width, height, packed }
    }

    /// An all-white film.
    pub fn blank(width: usize, height: usize) -> Film {
        Film { width, height, packed: vec![0; bytes_for(width) * height] }
    }

    pub fn bit(&self, row: usize, column: usize) -> bool {
        bit(self.row(row), column)
    }

    #[cfg(test)]
    pub fn blacken(&mut self, row: usize, column: usize) {
        let at = row * bytes_for(self.width) + column / 8;
        self.packed[at] |= 0x80 >> (column % 8);
    }

    /// Blackens a row from column `first` on where the first `columns` of these packed bits are 1.
    pub fn put(&mut self, row: usize, first: usize, packed: &[u8], columns: usize) {
        let start = row * bytes_for(self.width) + first / 8;
        let whole = if first % 8 == 0 { columns / 8 } else { 0 };
        for (to, from) in self.packed[start..].iter_mut().zip(&packed[..whole]) {
            *to |= from;
        }
        for (place, byte) in packed.iter().enumerate().take(bytes_for(columns)).skip(whole) {
            let left = columns - 8 * place;
            let byte = if left < 8 { byte & !(0xFF >> left) } else { *byte };
            let [high, low] = (u16::from(byte) << 8 >> (first % 8)).to_be_bytes();
            self.packed[start + place] |= high;
            // What goes to the next byte is within the columns, so there is one.
            if low != 0 {
                self.packed[start + place + 1] |= low;
            }
        }
    }

    /// All rows, packed.
    pub fn packed(&self) -> &[u8] {
        &self.packed
    }

    /// A row, packed.
    pub fn row(&self, row: usize) -> &[u8] {
        let length = bytes_for(self.width);
        &self.packed[row * length..][..length]
    }
}

/// Bit `place` of packed bytes, counted from 0.
pub fn bit(packed: &[u8], place: usize) -> bool {
    packed[place / 8] >> (7 - place % 8) & 1 == 1
}

/// Files that are no films, by how they start, as they are named where one is given.
const NO_FILMS: [(&[u8], &str); 13] = [
    (b"P2", "a PGM of greys"),
    (b"P5", "a PGM of greys"),
    (b"P3", "a PPM of colours"),
    (b"P6", "a PPM of colours"),
    (b"P7", "a PAM"),
    (b"\xFF\xD8", "a JPEG"),
    (b"GIF8", "a GIF"),
    (b"BM", "a BMP"),
    (b"%PDF", "a PDF"),
    (b"%!PS", "PostScript"),
    (b"<svg", "an SVG"),
    (&MESSAGES_MARK, "a file of messages"),
    (&RECEIVED_MARK, "a file of received rows"),
];

/// Reads a film from a file of any kind that films come in, known by its first bytes.
pub fn decode(name: &str, bytes: &[u8]) -> Result<Film> {
    if bytes.starts_with(pbm::PLAIN) || bytes.starts_with(pbm::RAW) {
        return pbm::decode(bytes).map_err(|fault| Trouble::with(name, fault));
    }
    let read = if bytes.starts_with(from_png::MARK) {
        from_png::decode(bytes)
    } else if from_tiff::MARKS.iter().any(|mark| bytes.starts_with(mark)) {
        from_tiff::decode(bytes)
    } else {
        let found = NO_FILMS.iter().find(|(mark, _)| bytes.starts_with(mark));
        let what = found.map_or("something else", |(_, what)| what);
        Err(format!("byte 0: this is {what}, and a film is PBM (P1 or P4), or PNG or TIFF of one bit"))
    };
    read.map_err(|what| Trouble::with(name, what))
}
