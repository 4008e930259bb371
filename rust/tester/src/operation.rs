//! How a call of any operation is compared with the reference: the answer, and every place of every slice.

use std::fmt::{Debug, Display};

use dairyhour::Refusal;

use crate::lent::{Cell, Lent, Noise};

/// What the reference says of a call: what is answered, or by which number it is refused, and what is written to the
/// start of the target, whose other places are as at entry.
#[derive(Clone, Debug, PartialEq, Eq)]
pub struct Due<V, C> {
    pub answer: Result<V, u32>,
    pub written: Vec<C>,
}

impl<V, C> Due<V, C> {
    /// Of an operation that writes nothing where it refuses.
    pub fn new(done: Result<(V, Vec<C>), u32>) -> Due<V, C> {
        match done {
            Ok((value, written)) => Due { answer: Ok(value), written },
            Err(number) => Due { answer: Err(number), written: Vec::new() },
        }
    }

    /// The same the other way round.
    pub fn done(self) -> Result<(V, Vec<C>), u32> {
        self.answer.map(|value| (value, self.written))
    }
}

/// An operation, with all that a call is given but the target: numbers, and `N` slices for reading. What is displayed
/// is enough to repeat the call.
pub trait Operation<const N: usize>: Display {
    /// What the target is made of.
    type Cell: Cell;
    /// What is answered where the operation is done. Beside a refusal the C boundary has the default.
    type Value: Copy + Default + PartialEq + Debug;

    /// The slices that are lent for reading.
    fn inputs(&self) -> [&[u8]; N];

    /// What the reference says, for a target of so many places.
    fn due(&self, room: usize) -> Due<Self::Value, Self::Cell>;

    /// The call over the C boundary: the number of the refusal, 0 where it is done, and the value.
    fn call(&self, inputs: [&[u8]; N], target: &mut [Self::Cell]) -> (u32, Self::Value);

    /// The call through the wrapper.
    fn call_wrapper(&self, inputs: [&[u8]; N], target: &mut [Self::Cell]) -> Result<Self::Value, Refusal>;

    /// Is what was written right by itself, too?
    fn is_sound(&self, _value: Self::Value, _written: &[Self::Cell]) -> bool {
        true
    }
}

/// Makes both calls with a target of so many places. Answers what the reference says.
pub fn agree<const N: usize, O: Operation<N>>(operation: &O, room: usize) -> Due<O::Value, O::Cell> {
    let due = operation.due(room);
    let number = due.answer.err().unwrap_or(0);
    let value = due.answer.unwrap_or_default();
    lend(operation, Noise::Plain, room, &due.written, (number, value), |inputs, target| operation.call(inputs, target));
    lend(operation, Noise::Complement, room, &due.written, due.answer, |inputs, target| {
        operation.call_wrapper(inputs, target).map_err(Refusal::number)
    });
    assert!(number != 0 || operation.is_sound(value, &due.written), "{operation}, target of {room}");
    due
}

/// Makes one call, which must answer this and leave this at the start of the target, and nothing else changed.
fn lend<const N: usize, O: Operation<N>, A: PartialEq + Debug>(
    operation: &O,
    noise: Noise,
    room: usize,
    written: &[O::Cell],
    answer: A,
    call: impl FnOnce([&[u8]; N], &mut [O::Cell]) -> A,
) {
    let what = || format!("{operation}, target of {room}");
    let lent = operation.inputs().map(|input| Lent::holding(input, noise));
    let mut target = Lent::target(room, noise);
    let mut slices = [&[][..]; N];
    slices.iter_mut().zip(&lent).for_each(|(slice, lent)| *slice = lent.slice());
    assert_eq!(call(slices, target.slice_mut()), answer, "{}", what());
    lent.iter().zip(operation.inputs()).for_each(|(lent, input)| lent.assert_holds(input, &what));
    target.assert_holds(written, &what);
}

/// The targets to try where `needed` places are written: empty, one too short, exact, and longer.
pub fn rooms(needed: usize) -> [usize; 6] {
    [0, 1, needed - 1, needed, needed + 1, needed + 100]
}

/// Tries all of them: those that are too short are refused, and no other.
pub fn agree_in_rooms<const N: usize, O: Operation<N>>(operation: &O, needed: usize) {
    for room in rooms(needed) {
        assert_eq!(agree(operation, room).answer.is_ok(), room >= needed, "{operation}, target of {room}");
    }
}

/// Which refusal comes first. Fit input is spoilt by every set of these refusals' conditions, each in either of two
/// ways, the greater numbers first, so that a way may rest on what a lesser number would spoil. Each time the least
/// number of the set is answered.
pub fn agree_on_the_least<F: Clone + Debug>(
    numbers: &[u32],
    fit: &F,
    spoil: impl Fn(&mut F, u32, usize),
    refusal: impl Fn(&F) -> Option<u32>,
) {
    for set in 0..3_usize.pow(numbers.len() as u32) {
        let way = |place: usize| (set / 3_usize.pow(place as u32) % 3).checked_sub(1);
        let mut spoilt = fit.clone();
        for (place, number) in numbers.iter().enumerate().rev() {
            way(place).into_iter().for_each(|way| spoil(&mut spoilt, *number, way));
        }
        let least = (0..numbers.len()).find(|place| way(*place).is_some()).map(|place| numbers[place]);
        assert_eq!(refusal(&spoilt), least, "{spoilt:?}");
    }
}

/// That what is wrong is seen.
#[cfg(test)]
mod tests {
    use std::{fmt, panic};

    use super::*;

    /// What a call of the operation below does wrong.
    #[derive(Clone, Copy, Debug, PartialEq, Eq)]
    enum Wrong {
        Nothing,
        Value,
        Number,
        ByteWritten,
        ByteBehind,
        ByteOfRefused,
        Wrapper,
        Unsound,
    }

    /// Copies its input, of two bytes, and answers their number. Refused by 10 where the target is shorter.
    struct Copying(Wrong);

    impl fmt::Display for Copying {
        fn fmt(&self, f: &mut fmt::Formatter<'_>) -> fmt::Result {
            write!(f, "copy, wrong: {:?}", self.0)
        }
    }

    impl Operation<1> for Copying {
        type Cell = u8;
        type Value = usize;

        fn inputs(&self) -> [&[u8]; 1] {
            [&[3, 5]]
        }

        fn due(&self, room: usize) -> Due<usize, u8> {
            Due::new(if room < 2 { Err(10) } else { Ok((2, vec![3, 5])) })
        }

        fn call(&self, [input]: [&[u8]; 1], target: &mut [u8]) -> (u32, usize) {
            if target.len() < input.len() {
                target.iter_mut().for_each(|byte| *byte ^= u8::from(self.0 == Wrong::ByteOfRefused));
                return (10 - u32::from(self.0 == Wrong::Number), usize::from(self.0 == Wrong::Value));
            }
            target[..2].copy_from_slice(input);
            target[1] ^= u8::from(self.0 == Wrong::ByteWritten);
            target.iter_mut().skip(2).for_each(|byte| *byte ^= u8::from(self.0 == Wrong::ByteBehind));
            (0, 2)
        }

        fn call_wrapper(&self, inputs: [&[u8]; 1], target: &mut [u8]) -> Result<usize, Refusal> {
            match self.call(inputs, target) {
                (0, value) => Ok(value + usize::from(self.0 == Wrong::Wrapper)),
                (number, _) => Err(Refusal::from_number(number)),
            }
        }

        fn is_sound(&self, _value: usize, _written: &[u8]) -> bool {
            self.0 != Wrong::Unsound
        }
    }

    fn is_seen(wrong: Wrong, room: usize) -> bool {
        panic::catch_unwind(|| agree(&Copying(wrong), room)).is_err()
    }

    #[test]
    fn what_a_call_does_wrong_is_seen() {
        agree_in_rooms(&Copying(Wrong::Nothing), 2);
        for (wrong, room) in [
            (Wrong::Value, 1),
            (Wrong::Number, 0),
            (Wrong::ByteWritten, 2),
            (Wrong::ByteBehind, 3),
            (Wrong::ByteOfRefused, 1),
            (Wrong::Wrapper, 2),
            (Wrong::Unsound, 2),
        ] {
            assert!(is_seen(wrong, room), "{wrong:?}");
            assert!(!is_seen(Wrong::Nothing, room));
        }
    }

    #[test]
    fn a_refusal_that_comes_too_early_is_seen() {
        let spoil = |faults: &mut Vec<u32>, number, _| faults.push(number);
        let least = |faults: &Vec<u32>| faults.iter().min().copied();
        let greatest = |faults: &Vec<u32>| faults.iter().max().copied();
        agree_on_the_least(&[3, 8, 10], &Vec::new(), spoil, least);
        assert!(panic::catch_unwind(|| agree_on_the_least(&[3, 8], &Vec::new(), spoil, greatest)).is_err());
    }
}
