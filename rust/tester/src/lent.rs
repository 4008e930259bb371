//! Slices with guard places on both sides, full of noise.

use std::fmt::Debug;

/// The places on each side of a slice that must stay as they are.
const GUARD: usize = 40;

/// Which noise stands in a target and around every slice.
#[derive(Clone, Copy, Debug, PartialEq, Eq)]
pub enum Noise {
    Plain,
    Complement,
}

/// What a slice can be made of.
pub trait Cell: Copy + PartialEq + Debug {
    fn noise(place: usize, noise: Noise) -> Self;
}

impl Cell for u8 {
    fn noise(place: usize, noise: Noise) -> u8 {
        let byte = (place * 89 + 23) as u8;
        match noise {
            Noise::Plain => byte,
            Noise::Complement => !byte,
        }
    }
}

impl Cell for u16 {
    fn noise(place: usize, noise: Noise) -> u16 {
        let pair = [u8::noise(2 * place, noise), u8::noise(2 * place + 1, noise)];
        u16::from_be_bytes(pair)
    }
}

/// A slice to lend, with its guards.
pub struct Lent<T> {
    cells: Vec<T>,
    noise: Noise,
}

impl<T: Cell> Lent<T> {
    /// A target of so many places.
    pub fn target(length: usize, noise: Noise) -> Lent<T> {
        let cells = (0..length + 2 * GUARD).map(|place| T::noise(place, noise)).collect();
        Lent { cells, noise }
    }

    /// A slice that holds what is given.
    pub fn holding(values: &[T], noise: Noise) -> Lent<T> {
        let mut lent = Lent::target(values.len(), noise);
        lent.slice_mut().copy_from_slice(values);
        lent
    }

    pub fn slice(&self) -> &[T] {
        &self.cells[GUARD..self.cells.len() - GUARD]
    }

    pub fn slice_mut(&mut self) -> &mut [T] {
        let end = self.cells.len() - GUARD;
        &mut self.cells[GUARD..end]
    }

    /// The slice holds `written` at its start; every place beyond, and every guard, is as at entry.
    pub fn assert_holds(&self, written: &[T], call: &dyn Fn() -> String) {
        for (place, found) in self.cells.iter().enumerate() {
            let expected = match place.checked_sub(GUARD).and_then(|inside| written.get(inside)) {
                Some(value) => *value,
                None => T::noise(place, self.noise),
            };
            if *found != expected {
                let inside = place as isize - GUARD as isize;
                panic!("{}: place {inside} of the slice is {found:?}, {expected:?} is due", call());
            }
        }
    }
}
