//! Letters for pictures of pixels: those of the words above the films. So no font has to be found on a machine, and no
//! font library be linked.

/// The columns and rows of a letter, and how many pixels each of its dots is wide and high.
const COLUMNS: u32 = 5;
const ROWS: usize = 9;
const DOT: u32 = 2;

/// The pixels from one letter to the next, and from one line of words to the next.
pub const ADVANCE: u32 = (COLUMNS + 1) * DOT;
pub const LINE: u32 = (ROWS as u32 + 2) * DOT;

/// Each letter with its rows from the top, the left column highest; the last two reach below the line.
const LETTERS: [(char, [u8; ROWS]); 40] = [
    ('0', [0b01110, 0b10001, 0b10011, 0b10101, 0b11001, 0b10001, 0b01110, 0, 0]),
    ('1', [0b00100, 0b01100, 0b00100, 0b00100, 0b00100, 0b00100, 0b01110, 0, 0]),
    ('2', [0b01110, 0b10001, 0b00001, 0b00110, 0b01000, 0b10000, 0b11111, 0, 0]),
    ('3', [0b01110, 0b10001, 0b00001, 0b00110, 0b00001, 0b10001, 0b01110, 0, 0]),
    ('4', [0b00010, 0b00110, 0b01010, 0b10010, 0b11111, 0b00010, 0b00010, 0, 0]),
    ('5', [0b11111, 0b10000, 0b11110, 0b00001, 0b00001, 0b10001, 0b01110, 0, 0]),
    ('6', [0b00110, 0b01000, 0b10000, 0b11110, 0b10001, 0b10001, 0b01110, 0, 0]),
    ('7', [0b11111, 0b00001, 0b00010, 0b00100, 0b01000, 0b01000, 0b01000, 0, 0]),
    ('8', [0b01110, 0b10001, 0b10001, 0b01110, 0b10001, 0b10001, 0b01110, 0, 0]),
    ('9', [0b01110, 0b10001, 0b10001, 0b01111, 0b00001, 0b00010, 0b01100, 0, 0]),
    ('a', [0, 0, 0b01110, 0b00001, 0b01111, 0b10001, 0b01111, 0, 0]),
    ('b', [0b10000, 0b10000, 0b11110, 0b10001, 0b10001, 0b10001, 0b11110, 0, 0]),
    ('c', [0, 0, 0b01110, 0b10001, 0b10000, 0b10001, 0b01110, 0, 0]),
    ('d', [0b00001, 0b00001, 0b01111, 0b10001, 0b10001, 0b10001, 0b01111, 0, 0]),
    ('e', [0, 0, 0b01110, 0b10001, 0b11111, 0b10000, 0b01110, 0, 0]),
    ('f', [0b00110, 0b01001, 0b01000, 0b11100, 0b01000, 0b01000, 0b01000, 0, 0]),
    ('g', [0, 0, 0b01111, 0b10001, 0b10001, 0b10001, 0b01111, 0b00001, 0b01110]),
    ('h', [0b10000, 0b10000, 0b11110, 0b10001, 0b10001, 0b10001, 0b10001, 0, 0]),
    ('i', [0b00100, 0, 0b01100, 0b00100, 0b00100, 0b00100, 0b01110, 0, 0]),
    ('j', [0b00010, 0, 0b00110, 0b00010, 0b00010, 0b00010, 0b00010, 0b10010, 0b01100]),
    ('k', [0b10000, 0b10000, 0b10010, 0b10100, 0b11000, 0b10100, 0b10010, 0, 0]),
    ('l', [0b01100, 0b00100, 0b00100, 0b00100, 0b00100, 0b00100, 0b01110, 0, 0]),
    ('m', [0, 0, 0b11010, 0b10101, 0b10101, 0b10101, 0b10101, 0, 0]),
    ('n', [0, 0, 0b11110, 0b10001, 0b10001, 0b10001, 0b10001, 0, 0]),
    ('o', [0, 0, 0b01110, 0b10001, 0b10001, 0b10001, 0b01110, 0, 0]),
    ('p', [0, 0, 0b11110, 0b10001, 0b10001, 0b10001, 0b11110, 0b10000, 0b10000]),
    ('q', [0, 0, 0b01111, 0b10001, 0b10001, 0b10001, 0b01111, 0b00001, 0b00001]),
    ('r', [0, 0, 0b10110, 0b11001, 0b10000, 0b10000, 0b10000, 0, 0]),
    ('s', [0, 0, 0b01111, 0b10000, 0b01110, 0b00001, 0b11110, 0, 0]),
    ('t', [0b01000, 0b01000, 0b11100, 0b01000, 0b01000, 0b01001, 0b00110, 0, 0]),
    ('u', [0, 0, 0b10001, 0b10001, 0b10001, 0b10011, 0b01101, 0, 0]),
    ('v', [0, 0, 0b10001, 0b10001, 0b10001, 0b01010, 0b00100, 0, 0]),
    ('w', [0, 0, 0b10001, 0b10101, 0b10101, 0b10101, 0b01010, 0, 0]),
    ('x', [0, 0, 0b10001, 0b01010, 0b00100, 0b01010, 0b10001, 0, 0]),
    ('y', [0, 0, 0b10001, 0b10001, 0b10001, 0b10001, 0b01111, 0b00001, 0b01110]),
    ('z', [0, 0, 0b11111, 0b00010, 0b00100, 0b01000, 0b11111, 0, 0]),
    (' ', [0; ROWS]),
    (',', [0, 0, 0, 0, 0, 0, 0b00100, 0b00100, 0b01000]),
    (':', [0, 0, 0, 0b00100, 0, 0, 0b00100, 0, 0]),
    ('.', [0, 0, 0, 0, 0, 0b00100, 0b00100, 0, 0]),
];

/// How many pixels a line of words is wide.
pub fn width(words: &str) -> u32 {
    words.chars().count() as u32 * ADVANCE
}

/// The dots of a line of words, as squares from their upper left pixel to below and right of their last. Letters that are
/// not there are left out.
pub fn dots(words: &str) -> impl Iterator<Item = [(i32, i32); 2]> + '_ {
    words.chars().enumerate().flat_map(|(place, letter)| {
        let rows = LETTERS.iter().find(|(found, _)| *found == letter).map_or([0; ROWS], |(_, rows)| *rows);
        let dot = move |row: usize, column: u32| {
            let (x, y) = (place as u32 * ADVANCE + column * DOT, row as u32 * DOT);
            [(x as i32, y as i32), ((x + DOT) as i32, (y + DOT) as i32)]
        };
        let black = move |row: usize, column: &u32| rows[row] >> (COLUMNS - 1 - column) & 1 == 1;
        (0..ROWS).flat_map(move |row| {
            (0..COLUMNS).filter(move |column| black(row, column)).map(move |column| dot(row, column))
        })
    })
}

#[cfg(test)]
mod tests {
    use super::*;

    #[test]
    fn letters_are_drawn_in_their_place() {
        assert_eq!(dots(":").collect::<Vec<_>>(), [[(4, 6), (6, 8)], [(4, 12), (6, 14)]]);
        assert_eq!(dots(" :").next(), Some([(4 + ADVANCE as i32, 6), (6 + ADVANCE as i32, 8)]));
        assert_eq!((width("ab"), dots("?").count()), (2 * ADVANCE, 0));
        let all = ('a'..='z').chain('0'..='9');
        assert!(all.into_iter().all(|letter| dots(&letter.to_string()).count() > 6));
    }
}
