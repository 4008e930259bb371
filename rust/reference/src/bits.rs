//! Strings of bits, and how they are packed: "first bit highest", "spare low bits of its last byte are 0".

/// The bytes that so many bits take.
pub fn bytes_for(bits: usize) -> usize {
    bits / 8 + usize::from(bits % 8 != 0)
}

/// As many bits as `value` needs in binary.
pub fn width(value: usize) -> usize {
    (usize::BITS - value.leading_zeros()) as usize
}

/// Bit `place` of packed bytes, counted from 0.
pub fn bit_at(bytes: &[u8], place: usize) -> bool {
    bytes[place / 8] >> (7 - place % 8) & 1 == 1
}

/// The first `count` bits of packed bytes.
pub fn unpack(bytes: &[u8], count: usize) -> Vec<bool> {
    (0..count).map(|place| bit_at(bytes, place)).collect()
}

/// The bytes of a string of bits.
pub fn pack(bits: &[bool]) -> Vec<u8> {
    let mut bytes = vec![0; bytes_for(bits.len())];
    for (place, _) in bits.iter().enumerate().filter(|(_, bit)| **bit) {
        bytes[place / 8] |= 0x80 >> (place % 8);
    }
    bytes
}

/// Are these just the bytes that `count` bits need, with every spare bit 0?
pub fn is_packed(bytes: &[u8], count: usize) -> bool {
    if bytes.len() != bytes_for(count) {
        return false;
    }
    match bytes.last() {
        Some(last) if count % 8 != 0 => last & (0xFF >> (count % 8)) == 0,
        _ => true,
    }
}

/// The number that the bits spell, first bit highest.
pub fn number(bits: &[bool]) -> usize {
    bits.iter().fold(0, |high, bit| 2 * high + usize::from(*bit))
}

/// The lowest `width` binary digits of a number, highest first.
pub fn digits(value: usize, width: usize) -> Vec<bool> {
    let mut bits = Vec::with_capacity(width);
    push_number(&mut bits, value, width);
    bits
}

/// Appends the lowest `width` binary digits of a number, highest first.
pub fn push_number(bits: &mut Vec<bool>, value: usize, width: usize) {
    bits.extend((0..width).rev().map(|digit| value >> digit & 1 == 1));
}

#[cfg(test)]
mod tests {
    use super::*;

    #[test]
    fn packing_and_unpacking_are_inverse() {
        for count in 0..=12 {
            for value in 0..1 << count {
                let bits = digits(value, count);
                let bytes = pack(&bits);
                assert!(is_packed(&bytes, count));
                assert_eq!(unpack(&bytes, count), bits);
                assert_eq!(number(&bits), value);
            }
        }
    }

    #[test]
    fn a_spare_bit_or_another_byte_count_is_seen() {
        assert!(is_packed(&[], 0));
        assert!(!is_packed(&[0], 0));
        assert!(!is_packed(&[0], 9));
        assert!(is_packed(&[0xFF], 8));
        assert!(is_packed(&[0xE0], 3));
        assert!(!is_packed(&[0xF0], 3));
        assert!(!is_packed(&[0x01], 7));
    }

    #[test]
    fn widths() {
        for (value, bits) in [(1, 1), (3, 2), (4, 3), (12, 4), (20, 5), (255, 8), (256, 9), (2040, 11)] {
            assert_eq!(width(value), bits);
        }
    }
}
