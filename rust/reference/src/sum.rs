//! The sum of a string, its Varshamov-Tenengolts syndrome.

/// The total of the positions, from 1, of the ones.
pub fn total(bits: &[bool]) -> usize {
    (1..).zip(bits).filter(|(_, bit)| **bit).map(|(position, _)| position).sum()
}

/// "The total of the positions, from 1, of its ones, modulo w + 1."
pub fn sum(bits: &[bool]) -> usize {
    total(bits) % (bits.len() + 1)
}

#[cfg(test)]
mod tests {
    use super::*;

    #[test]
    fn small_sums() {
        assert_eq!(sum(&[]), 0);
        assert_eq!(sum(&[true]), 1);
        assert_eq!(sum(&[true, false, true]), 0);
        assert_eq!(sum(&[false, true, true, true]), 4);
    }
}
