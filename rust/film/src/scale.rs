//! The size at which films are drawn.

use crate::trouble::{Result, Trouble};

/// A colour that must be seen, however many bits a pixel shows: a recovered bit that is not as it was sent.
pub const WRONG: [u8; 3] = [255, 0, 0];

/// The most pixels of a picture: a gigabyte of colours.
const MOST_PIXELS: usize = (1 << 30) / 3;

/// A mark reaches at least this share of a film's width to each side.
const MARKS_ACROSS: usize = 300;

/// How films are drawn: each bit as a square of so many pixels, or a square of so many bits as one pixel.
pub struct Scale {
    columns: usize,
    rows: usize,
    larger: usize,
    smaller: usize,
}

impl Scale {
    pub fn new(columns: usize, rows: usize, most: usize) -> Scale {
        Scale { columns, rows, larger: (most / columns).clamp(1, 8), smaller: (columns + most - 1) / most }
    }

    pub fn width(&self) -> usize {
        (self.columns * self.larger + self.smaller - 1) / self.smaller
    }

    pub fn height(&self) -> usize {
        (self.rows * self.larger + self.smaller - 1) / self.smaller
    }

    /// The width and the height of a picture of three films in columns of this width, with so many pixels between and around
    /// them and above them, where it is not too large.
    pub fn picture(&self, column: usize, gap: usize, heading: usize) -> Result<(u32, u32)> {
        let width = 3 * column + 4 * gap;
        let height = self.height() + gap + heading;
        match width.checked_mul(height) {
            Some(pixels) if pixels <= MOST_PIXELS => Ok((width as u32, height as u32)),
            _ => Err(Trouble::new(format!(
                "the picture has {width} × {height} pixels, but at most {MOST_PIXELS} are drawn"
            ))),
        }
    }

    /// The mark at a bit, from its upper left pixel to below and right of its last: within the film, and never smaller than
    /// it can be seen, in a small picture or in a large one.
    pub fn mark(&self, row: usize, column: usize) -> [(usize, usize); 2] {
        let reach = (self.width() / MARKS_ACROSS).max(self.larger / 4).max(1);
        let ends = |bit: usize, size: usize| {
            let middle = (bit * self.larger + self.larger / 2) / self.smaller;
            (middle.saturating_sub(reach), (middle + reach + 1).min(size))
        };
        let ((left, right), (top, bottom)) = (ends(column, self.width()), ends(row, self.height()));
        [(left, top), (right, bottom)]
    }

    /// The pixels of a film whose bits have these colours: the mean colour of the bits that a pixel shows, or the colour of a
    /// wrong one among them.
    pub fn paint(&self, colour: impl Fn(usize, usize) -> [u8; 3]) -> Vec<u8> {
        let mut pixels = Vec::with_capacity(self.width() * self.height() * 3);
        for y in 0..self.height() {
            for x in 0..self.width() {
                pixels.extend(self.pixel(x, y, &colour));
            }
        }
        pixels
    }

    fn pixel(&self, x: usize, y: usize, colour: &impl Fn(usize, usize) -> [u8; 3]) -> [u8; 3] {
        let bits = |pixel: usize, end: usize| {
            let first = pixel * self.smaller / self.larger;
            first..end.min(first + self.smaller)
        };
        let mut total = [0_usize; 3];
        let mut count = 0;
        for row in bits(y, self.rows) {
            for column in bits(x, self.columns) {
                let found = colour(row, column);
                if found == WRONG {
                    return WRONG;
                }
                total.iter_mut().zip(found).for_each(|(sum, part)| *sum += usize::from(part));
                count += 1;
            }
        }
        total.map(|sum| (sum / count.max(1)) as u8)
    }
}

#[cfg(test)]
mod tests {
    use super::*;

    #[test]
    fn scales() {
        for ((columns, rows), size) in [((378, 220), (378, 220)), ((60, 54), (480, 432)), ((2041, 1187), (511, 297))] {
            let scale = Scale::new(columns, rows, 680);
            assert_eq!((scale.width(), scale.height()), size);
            assert_eq!(scale.paint(|_, _| [1, 2, 3]).len(), 3 * size.0 * size.1);
        }
    }

    #[test]
    fn pictures_have_a_largest_size() {
        assert_eq!(Scale::new(378, 220, 680).picture(400, 16, 36).unwrap(), (3 * 400 + 64, 220 + 52));
        assert!(Scale::new(10_000, 10_000, 10_000).picture(10_000, 16, 36).is_ok());
        for (columns, rows) in [(1, 2_100_000), (10_000, 12_000), (1, usize::MAX / 16)] {
            let scale = Scale::new(columns, rows, 10_000);
            assert!(scale.picture(scale.width(), 16, 36).is_err());
        }
    }

    /// A mark is three pixels wide or more, grows with the picture, and stays within the film.
    #[test]
    fn marks_are_seen_at_any_scale() {
        for (columns, most, least) in
            [(2040, 50, 3), (2040, 680, 3), (60, 680, 5), (378, 10_000, 21), (2040, 10_000, 55)]
        {
            let scale = Scale::new(columns, 1000, most);
            for (row, column) in [(0, 0), (500, columns / 2), (999, columns - 1)] {
                let [(left, top), (right, bottom)] = scale.mark(row, column);
                assert!(right <= scale.width() && bottom <= scale.height());
                let whole = if row == 500 { least } else { least / 2 + 1 };
                assert!(right - left >= whole && bottom - top >= whole, "{columns} {most} {row}");
            }
        }
    }

    /// One wrong bit among hundreds of a pixel is seen.
    #[test]
    fn a_wrong_bit_is_seen_at_any_scale() {
        for most in [50, 680, 10_000] {
            let scale = Scale::new(2040, 300, most);
            let pixels = scale.paint(|row, column| if (row, column) == (123, 456) { WRONG } else { [255; 3] });
            assert!(pixels.chunks(3).any(|pixel| pixel == WRONG), "{most}");
        }
    }
}
