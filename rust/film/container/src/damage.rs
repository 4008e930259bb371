//! Damaged files, for the tests of both formats.

use crate::Fault;

/// Every cut, every flipped bit and every added byte of a good file is refused; a cut and an added byte by their place.
pub fn is_refused(file: &[u8], refused: impl Fn(&[u8]) -> Fault) {
    for length in 0..file.len() {
        assert_eq!(refused(&file[..length]).byte, length);
    }
    for place in 0..file.len() {
        for bit in 0..8 {
            let mut damaged = file.to_vec();
            damaged[place] ^= 1 << bit;
            refused(&damaged);
        }
    }
    let longer = [file, &[0]].concat();
    assert_eq!(refused(&longer), Fault::new(file.len(), "the file should end here, but goes on for 1 byte"));
}
