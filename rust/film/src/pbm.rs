//! PBM files, plain (`P1`) and raw (`P4`), read by the rules of netpbm's own library.
//!
//! - Numbers may have blanks, tabs and ends of lines in front of them, and so may the digits of a plain film.
//! - A comment goes from `#` to the end of its line. It may stand wherever a byte of the head or a digit is looked for,
//!   and counts as that end of line, also behind the height.
//! - One byte behind each number is passed over, whatever it is.
//! - Behind the film only white space may follow: what else stands there would be a further film, or shows that a row is
//!   too long and all behind it out of place.

use container::{bytes_for, Fault};

use crate::picture::Film;

/// The two kinds of files.
pub const PLAIN: &[u8] = b"P1";
pub const RAW: &[u8] = b"P4";

/// The largest number that netpbm takes.
const LARGEST: usize = i32::MAX as usize;

/// Reads a PBM file; a fault names the byte.
pub fn decode(bytes: &[u8]) -> Result<Film, Fault> {
    let mut text = Text { bytes, at: PLAIN.len() };
    let width = text.number("width")?;
    let height = text.number("height")?;
    let packed =
        if bytes.starts_with(PLAIN) { plain(&mut text, width, height) } else { raw(&mut text, width, height) }?;
    text.close()?;
    Ok(Film::new(width, height, packed))
}

/// The rows of a plain film. They are packed as they are read, so that a false size costs no memory.
fn plain(text: &mut Text<'_>, width: usize, height: usize) -> Result<Vec<u8>, Fault> {
    let mut packed = Vec::new();
    for _ in 0..height {
        let mut byte = 0;
        for column in 0..width {
            byte |= text.bit()? << (7 - column % 8);
            if column % 8 == 7 || column + 1 == width {
                packed.push(byte);
                byte = 0;
            }
        }
    }
    Ok(packed)
}

/// The rows of a raw film.
fn raw(text: &mut Text<'_>, width: usize, height: usize) -> Result<Vec<u8>, Fault> {
    let length = bytes_for(width) * height;
    let packed = text.bytes[text.at..].get(..length).ok_or_else(|| text.end())?;
    text.at += length;
    Ok(packed.to_vec())
}

/// The bytes of a file, and which of them is read next.
struct Text<'a> {
    bytes: &'a [u8],
    at: usize,
}

impl Text<'_> {
    fn end(&self) -> Fault {
        Fault::new(self.bytes.len(), "the file ends within the film")
    }

    /// A fault at the byte that was read last.
    fn wrong(&self, what: impl Into<String>) -> Fault {
        Fault::new(self.at - 1, what)
    }

    fn byte(&mut self) -> Result<u8, Fault> {
        let byte = *self.bytes.get(self.at).ok_or_else(|| self.end())?;
        self.at += 1;
        Ok(byte)
    }

    /// The next byte; of a comment its last one, the end of the line.
    fn letter(&mut self) -> Result<u8, Fault> {
        let mut byte = self.byte()?;
        if byte == b'#' {
            while !matches!(byte, b'\n' | b'\r') {
                byte = self.byte()?;
            }
        }
        Ok(byte)
    }

    /// The next byte that is no blank.
    fn word(&mut self) -> Result<u8, Fault> {
        loop {
            match self.letter()? {
                b' ' | b'\t' | b'\n' | b'\r' => {}
                byte => return Ok(byte),
            }
        }
    }

    /// A number above 0, and the byte behind it.
    fn number(&mut self, what: &str) -> Result<usize, Fault> {
        let mut byte = self.word()?;
        let first = self.at - 1;
        if !byte.is_ascii_digit() {
            return Err(self.wrong(format!("{} where the {what} should be", shown(byte))));
        }
        let mut number = 0;
        while byte.is_ascii_digit() {
            number = number * 10 + usize::from(byte - b'0');
            if number > LARGEST {
                return Err(Fault::new(first, format!("the {what} is too large")));
            }
            byte = self.letter()?;
        }
        match number {
            0 => Err(Fault::new(first, format!("the {what} is 0, but a film has rows and columns"))),
            _ => Ok(number),
        }
    }

    /// A digit of a plain film.
    fn bit(&mut self) -> Result<u8, Fault> {
        match self.word()? {
            byte @ (b'0' | b'1') => Ok(byte - b'0'),
            byte => Err(self.wrong(format!("{} where 0 or 1 should be", shown(byte)))),
        }
    }

    /// The end of the file.
    fn close(&self) -> Result<(), Fault> {
        let white = |byte: &u8| matches!(byte, b' ' | b'\t' | b'\n' | b'\r' | 0x0B | 0x0C);
        match self.bytes[self.at..].iter().position(|byte| !white(byte)) {
            None => Ok(()),
            Some(more) => Err(Fault::new(self.at + more, "the film ends before this, but the file goes on")),
        }
    }
}

/// A byte as it is shown to people.
fn shown(byte: u8) -> String {
    match byte {
        b'!'..=b'~' => format!("'{}'", char::from(byte)),
        _ => format!("the byte {byte:02X}"),
    }
}

/// The raw PBM file of a film.
pub fn encode(film: &Film) -> Vec<u8> {
    let head = format!("P4\n{} {}\n", film.width, film.height);
    [head.as_bytes(), film.packed()].concat()
}

#[cfg(test)]
mod tests {
    use super::*;

    #[test]
    fn a_film_is_read_as_it_was_written() {
        for (width, height) in [(1, 1), (7, 3), (8, 2), (9, 5), (2041, 2)] {
            let mut film = Film::blank(width, height);
            for place in (0..width * height).step_by(3) {
                film.blacken(place / width, place % width);
            }
            assert_eq!(decode(&encode(&film)).unwrap(), film);
        }
    }

    /// What netpbm reads as three columns with 101. The answers of netpbm 11.01 were taken down.
    #[test]
    fn what_netpbm_reads_is_read() {
        for bytes in [
            &b"P1 3 1 1 0 1"[..],
            b"P1\n# a film\n3 1\n101\n",
            b"P1 3 1 1 0 1\n\n \t\r\x0B\x0C",
            b"P1 3 1 1#c\n0 1",
            b"P1 3 1 1 #c\r0 # 0 1 0 7\n1",
            b"P1 3 1#x\n101",
            b"P1 3#c\n 1 1 0 1",
            b"P1#c\n3 1 1 0 1",
            b"P1 3x1,101",
            b"P13 1 1 0 1",
            b"P1 003 01\n101",
            b"P4 3 1\n\xA0",
            b"P4 3 1\n\xBF",
            b"P4 3 1\n\xA0\n",
            b"P4 3 1#a comment behind the size\n\xA0",
            b"P4 3 1x\xA0",
        ] {
            let film = decode(bytes).unwrap_or_else(|fault| panic!("{}: {fault}", String::from_utf8_lossy(bytes)));
            assert_eq!((film.width, film.height, film.packed()), (3, 1, &[0xA0][..]));
        }
    }

    /// What netpbm refuses, or reads as more than one picture, with the byte.
    #[test]
    fn what_netpbm_refuses_is_refused_by_its_byte() {
        for (byte, bytes) in [
            (13, &b"P1 3 1 1 0 1 1"[..]),
            (12, b"P1 3 1 1 0 1x"),
            (13, b"P1 3 1 1 0 1 # end\n"),
            (9, b"P1 3 1 107"),
            (11, b"P1 3 1 1 0 2 1"),
            (8, b"P1 3 1 1\x0B0 1"),
            (8, b"P1 3 1 1\x0C0 1"),
            (2, b"P1\x0B3 1 1 0 1"),
            (9, b"P1 3 1101"),
            (10, b"P1 3 1 1 0"),
            (12, b"P1 3 1 1 0 #"),
            (2, b"P4"),
            (3, b"P4 x y\n"),
            (3, b"P4 +3 1\n\xA0"),
            (3, b"P4 -3 1\n\xA0"),
            (3, b"P4 0 7\n"),
            (5, b"P4 7 0\n"),
            (6, b"P4 3 1"),
            (7, b"P4 3 1#"),
            (7, b"P4 3 1\n"),
            (8, b"P4 3 1\n\xA0x"),
            (8, b"P4 3 1\n\xA0P4 3 1\n\xA0"),
            (8, b"P4 3 1 #hello\n\xA0"),
            (9, b"P4\r\n3 1\r\n\xA0"),
            (3, b"P4 2147483648 1\n\xA0"),
            (16, b"P4 400000000 4\n\0"),
            (25, b"P4 2147483647 2147483647\n"),
        ] {
            let fault = decode(bytes).unwrap_err();
            assert_eq!(fault.byte, byte, "{}: {fault}", String::from_utf8_lossy(bytes));
        }
        assert_eq!(decode(b"P1 3 1 1 0 7").unwrap_err().to_string(), "byte 11: '7' where 0 or 1 should be");
    }

    #[test]
    fn plain_and_raw_say_the_same() {
        let plain = decode(b"P1\n# a film\n9 2\n1 0 0 0 0 0 0 0 1\n0 1 0 0 0 0 0 0 0\n").unwrap();
        assert_eq!(plain, decode(b"P4 9 2\n\x80\x80\x40\x00").unwrap());
    }
}
