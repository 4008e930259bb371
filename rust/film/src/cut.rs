//! A film as rows of the line: cut into panels, padded, and put together again.

use container::{bytes_for, Head};
use dairyhour::Layout;

use crate::layout;
use crate::picture::{bit, Film};
use crate::trouble::{Result, Trouble};

/// How a film is sent under a layout, or under the one that its width suggests.
pub fn head(film: &Film, given: Option<Layout>) -> Result<Head> {
    let layout = given.unwrap_or_else(|| layout::for_width(film.width));
    Head::new(film.width as u32, film.height as u32, layout::bytes(layout))
        .ok_or_else(|| Trouble::new(format!("a film of {} × {} has too many rows", film.width, film.height)))
}

/// The rows of the line, packed: for each row of the film its panels from left to right.
pub fn rows(film: &Film, head: &Head) -> Vec<Vec<u8>> {
    (0..head.rows()).map(|number| row(film, head, number)).collect()
}

/// One row of the line, packed.
pub fn row(film: &Film, head: &Head, number: usize) -> Vec<u8> {
    let panels = head.panels as usize;
    panel(film.row(number / panels), film.width, number % panels, head.row_bits())
}

/// Panel `number` of a row of the film, `bits` wide; beyond the film's width stand zeros.
fn panel(row: &[u8], width: usize, number: usize, bits: usize) -> Vec<u8> {
    let mut packed = vec![0; bytes_for(bits)];
    let first = number * bits;
    for column in (first..width.min(first + bits)).filter(|column| bit(row, *column)) {
        let place = column - first;
        packed[place / 8] |= 0x80 >> (place % 8);
    }
    packed
}

/// Puts a row of the line into a film in which its place is white.
pub fn put(film: &mut Film, head: &Head, row: usize, packed: &[u8]) {
    let panels = head.panels as usize;
    let first = row % panels * head.row_bits();
    film.put(row / panels, first, packed, head.row_bits().min(film.width - first));
}

/// Has this row of the line ink in the pad? Such a row cannot have been sent, as the pad is white.
pub fn inks_pad(head: &Head, row: usize, packed: &[u8]) -> bool {
    let last = (row + 1) % head.panels as usize == 0;
    let white = head.row_bits() - usize::from(head.pad);
    last && (white..head.row_bits()).any(|place| bit(packed, place))
}

#[cfg(test)]
mod tests {
    use super::*;

    #[test]
    fn a_film_is_put_together_again() {
        for (width, layout) in [(7, [2, 1, 4, 0]), (8, [2, 1, 4, 0]), (9, [2, 1, 4, 0]), (30, [1, 1, 7, 1])] {
            let mut film = Film::blank(width, 3);
            for place in (0..3 * width).filter(|place| place % 5 < 2) {
                film.blacken(place / width, place % width);
            }
            let head = Head::new(width as u32, 3, layout).unwrap();
            let rows = rows(&film, &head);
            assert_eq!(rows.len(), head.rows());
            let mut joined = Film::blank(width, 3);
            for (number, row) in rows.iter().enumerate() {
                put(&mut joined, &head, number, row);
            }
            assert_eq!(joined, film);
        }
    }

    #[test]
    fn ink_in_the_pad_is_seen() {
        // Two panels of 8 columns, of which the last three are no part of the film.
        let head = Head::new(13, 2, [2, 1, 4, 0]).unwrap();
        for (row, packed, inked) in
            [(0, 0xFF, false), (1, 0xF8, false), (1, 0x04, true), (1, 0x01, true), (2, 0x01, false), (3, 0x02, true)]
        {
            assert_eq!(inks_pad(&head, row, &[packed]), inked, "{row} {packed:02X}");
        }
        let whole = Head::new(16, 1, [2, 1, 4, 0]).unwrap();
        assert!(!inks_pad(&whole, 1, &[0xFF]));
    }
}
