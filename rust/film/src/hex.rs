//! Bytes in hexadecimal.

const DIGITS: [u8; 16] = *b"0123456789ABCDEF";

/// Appends bytes in capital hexadecimal.
pub fn push(text: &mut String, bytes: &[u8]) {
    let digit = |value: u8| char::from(DIGITS[usize::from(value)]);
    for byte in bytes {
        text.push(digit(byte >> 4));
        text.push(digit(byte & 0xF));
    }
}

/// Bytes in capital hexadecimal.
pub fn text(bytes: &[u8]) -> String {
    let mut text = String::with_capacity(2 * bytes.len());
    push(&mut text, bytes);
    text
}

/// Bytes that were given in hexadecimal.
#[derive(Clone, Debug, PartialEq, Eq)]
pub struct Bytes(pub Vec<u8>);

/// Reads pairs of hexadecimal digits; there may be blanks between pairs.
pub fn parse(text: &str) -> Result<Bytes, String> {
    let wrong = || String::from("bytes of two hexadecimal digits are wanted, as in 52534D0001");
    let mut bytes = Vec::new();
    for word in text.split_ascii_whitespace() {
        for pair in word.as_bytes().chunks(2) {
            let digit = |byte: &u8| char::from(*byte).to_digit(16);
            match pair.iter().map(digit).collect::<Option<Vec<_>>>().as_deref() {
                Some([high, low]) => bytes.push((high << 4 | low) as u8),
                _ => return Err(wrong()),
            }
        }
    }
    Ok(Bytes(bytes))
}

#[cfg(test)]
mod tests {
    use super::*;

    #[test]
    fn words_are_read() {
        assert_eq!(parse("52534d 00 fF"), Ok(Bytes(vec![0x52, 0x53, 0x4D, 0, 0xFF])));
        assert_eq!(parse(""), Ok(Bytes(vec![])));
        for text in ["5", "525", "5 2", "xy", "+1", "0x52", "5é"] {
            assert!(parse(text).is_err(), "{text}");
        }
    }

    #[test]
    fn every_byte() {
        let bytes: Vec<u8> = (0..=255).collect();
        let expected: String = bytes.iter().map(|byte| format!("{byte:02X}")).collect();
        assert_eq!(text(&bytes), expected);
    }
}
