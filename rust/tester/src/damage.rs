//! Input that is not fit: strings that are packed otherwise, and messages that are damaged.

use reference::bits::pack;
use reference::layout::HEAD;
use reference::message::{encode, slots, MARK_AND_VERSION};
use reference::random::Random;
use reference::Layout;

/// Changes bit `place`, counted from 0.
pub fn flip(bytes: &mut [u8], place: usize) {
    bytes[place / 8] ^= 0x80 >> (place % 8);
}

/// Bytes that the bits are not packed into: of other counts, and with each spare bit in turn 1.
pub fn misfits(bits: &[bool]) -> Vec<Vec<u8>> {
    let packed = pack(bits);
    let right = packed.len();
    let counts = [0, right.saturating_sub(1), right + 1, 2 * right, right + 256];
    let resized = |count: usize| {
        let mut bytes = packed.clone();
        bytes.resize(count, 0);
        bytes
    };
    let spoilt = |place: usize| {
        let mut bytes = packed.clone();
        flip(&mut bytes, place);
        bytes
    };
    let others = counts.into_iter().filter(|count| *count != right).map(resized);
    others.chain((bits.len()..8 * right).map(spoilt)).collect()
}

/// Numbers that fit the slots of a layout's message, of which no row need exist.
pub fn any_fields(layout: &Layout, random: &mut Random) -> Vec<u16> {
    slots(layout).iter().map(|slot| random.below(slot.most + 1) as u16).collect()
}

/// Messages in which one of these sums in turn is one above the length of its string, or all ones, where its bits can
/// spell that.
pub fn sums_above(layout: &Layout, numbers: &[u16]) -> Vec<Vec<u8>> {
    let mut messages = Vec::new();
    for (place, slot) in slots(layout).into_iter().enumerate().take(layout.l1 + layout.l2) {
        for value in [slot.most + 1, (1 << slot.width) - 1] {
            if value > slot.most && value >> slot.width == 0 {
                let mut damaged = numbers.to_vec();
                damaged[place] = value as u16;
                messages.push(encode(layout, &damaged));
            }
        }
    }
    messages
}

/// Fewer than `most` bytes of any kind, behind a mark and a version where that is asked for and there is room.
pub fn some_bytes(most: usize, marked: bool, random: &mut Random) -> Vec<u8> {
    let mut bytes: Vec<u8> = (0..random.below(most)).map(|_| random.number() as u8).collect();
    if marked && bytes.len() >= MARK_AND_VERSION.len() {
        bytes[..MARK_AND_VERSION.len()].copy_from_slice(&MARK_AND_VERSION);
    }
    bytes
}

/// Four blocks of one chunk of four bits: sums may be out of range, three bits of the message are spare, and of the
/// row's bits more can be missing than may.
pub const LAYOUT: Layout = Layout { l1: 4, l2: 1, nc: 4, r: 1 };

/// Makes the condition of one of the refusals 1 to 6 true of a message of that layout, in one of two ways. Greater
/// numbers are spoilt first: the places of 5 and 6 are there as long as 4 has not cut the message.
pub fn spoil(message: &mut Vec<u8>, number: u32, way: usize) {
    match number {
        1 => message[way] ^= 0x01,
        2 => message[3 + way] ^= 0x02,
        3 => message[7 + way] = 0xFF,
        4 if way == 0 => message.push(0),
        4 => message.truncate(HEAD + 2),
        5 if way == 0 => message[HEAD] |= 0xE0,
        5 => message[HEAD + 1] |= 0x0F,
        6 => message[HEAD + 2] |= 1 << way,
        _ => unreachable!("a message is refused by 1 to 6"),
    }
}
