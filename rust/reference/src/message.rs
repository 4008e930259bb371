//! The side message: writing and reading it.

use crate::bits::{is_packed, number, pack, push_number, unpack, width};
use crate::field;
use crate::layout::{Layout, HEAD};
use crate::refusal;
use crate::sum::sum;

/// "Bytes 52 53 4D (the mark RSM), version 00 01."
pub const MARK_AND_VERSION: [u8; 5] = [0x52, 0x53, 0x4D, 0x00, 0x01];

/// A number of the message: how many bits it takes, and the most that it may be.
#[derive(Clone, Copy, Debug, PartialEq, Eq)]
pub struct Slot {
    pub width: usize,
    pub most: usize,
}

/// The slots of a legal layout's message, in order. A sum is at most the length of its string; a check is
/// anything that its bits can spell.
pub fn slots(layout: &Layout) -> Vec<Slot> {
    let sum_of = |length| Slot { width: width(length), most: length };
    let check = Slot { width: layout.nc, most: (1 << layout.nc) - 1 };
    let mut slots = vec![sum_of(layout.block_bits()); layout.l1];
    slots.extend(vec![sum_of(layout.string_bits()); layout.l2]);
    slots.extend(vec![check; layout.r]);
    slots
}

/// The block sums, chunk-string sums and checks of a row under a legal layout, in that order.
pub fn fields(layout: &Layout, row: &[bool]) -> Vec<u16> {
    let chunks: Vec<&[bool]> = row.chunks(layout.nc).collect();
    let string = |j: usize| -> Vec<bool> { (0..layout.l1).flat_map(|i| chunks[i * layout.l2 + j].to_vec()).collect() };
    let numbers: Vec<u32> = chunks.iter().map(|chunk| number(chunk) as u32).collect();

    let mut fields: Vec<u16> = row.chunks(layout.block_bits()).map(|block| sum(block) as u16).collect();
    fields.extend((0..layout.l2).map(|j| sum(&string(j)) as u16));
    fields.extend((0..layout.r).map(|i| field::check(layout.nc, i, &numbers) as u16));
    fields
}

/// The message with these numbers, each of which fits its slot.
pub fn encode(layout: &Layout, fields: &[u16]) -> Vec<u8> {
    let mut bits = Vec::new();
    for (slot, value) in slots(layout).iter().zip(fields) {
        push_number(&mut bits, usize::from(*value), slot.width);
    }
    let mut message = MARK_AND_VERSION.to_vec();
    message.extend([layout.l1, layout.l2, layout.nc, layout.r].map(|number| number as u8));
    message.extend(pack(&bits));
    message
}

/// Whether writing refuses: "3, 8, 10".
#[inline]
pub fn admit_row(layout: &Layout, row: &[u8], room: usize) -> Result<(), u32> {
    if !layout.is_legal() {
        return Err(refusal::LAYOUT);
    }
    if !is_packed(row, layout.row_bits()) {
        return Err(refusal::PACKING);
    }
    if room < layout.message_bytes() {
        return Err(refusal::SHORT_TARGET);
    }
    Ok(())
}

/// What writing puts into a target of `room` bytes, or the number of the refusal.
pub fn write(layout: &Layout, row: &[u8], room: usize) -> Result<Vec<u8>, u32> {
    admit_row(layout, row, room)?;
    Ok(encode(layout, &fields(layout, &unpack(row, layout.row_bits()))))
}

/// The layout in a message's head and the bytes behind it, unless "1, 2, 3, 4" refuse.
#[inline]
pub fn read_head(message: &[u8]) -> Result<(Layout, &[u8]), u32> {
    if message.len() < HEAD || message[..3] != MARK_AND_VERSION[..3] {
        return Err(refusal::NO_MESSAGE);
    }
    if message[3..5] != MARK_AND_VERSION[3..] {
        return Err(refusal::VERSION);
    }
    let head = |place: usize| usize::from(message[place]);
    let layout = Layout::new(head(5), head(6), head(7), head(8));
    if !layout.is_legal() {
        return Err(refusal::LAYOUT);
    }
    if message.len() != layout.message_bytes() {
        return Err(refusal::MESSAGE_LENGTH);
    }
    Ok((layout, &message[HEAD..]))
}

/// The layout that reading answers and the numbers that it puts into a target of `room` entries, or the
/// number of the refusal.
pub fn read(message: &[u8], room: usize) -> Result<(Layout, Vec<u16>), u32> {
    let (layout, body) = read_head(message)?;
    let bits = unpack(body, layout.field_bits());
    let mut rest = &bits[..];
    let mut fields = Vec::new();
    for slot in slots(&layout) {
        let (field, later) = rest.split_at(slot.width);
        if number(field) > slot.most {
            return Err(refusal::SUM);
        }
        fields.push(number(field) as u16);
        rest = later;
    }
    if !is_packed(body, layout.field_bits()) {
        return Err(refusal::SPARE_BIT);
    }
    if room < layout.fields() {
        return Err(refusal::SHORT_TARGET);
    }
    Ok((layout, fields))
}

#[cfg(test)]
mod tests {
    use super::*;

    const LAYOUT: Layout = Layout { l1: 5, l2: 3, nc: 4, r: 4 };
    const ROW: [u8; 8] = [0x4A, 0x50, 0x3E, 0x77, 0x10, 0x24, 0x46, 0x80];
    const FIELDS: [u16; 12] = [10, 6, 3, 4, 11, 11, 20, 4, 11, 6, 13, 2];
    const MESSAGE: [u8; 16] =
        [0x52, 0x53, 0x4D, 0x00, 0x01, 0x05, 0x03, 0x04, 0x04, 0xA6, 0x34, 0xB5, 0xD0, 0x96, 0xDA, 0x40];

    #[test]
    fn case_1() {
        assert_eq!(fields(&LAYOUT, &unpack(&ROW, 60)), FIELDS);
    }

    #[test]
    fn case_2() {
        assert_eq!(write(&LAYOUT, &ROW, 16), Ok(MESSAGE.to_vec()));
        assert_eq!(read(&MESSAGE, 12), Ok((LAYOUT, FIELDS.to_vec())));
    }

    #[test]
    fn case_11() {
        let mut sum_13 = MESSAGE;
        sum_13[9] = 0xD6;
        assert_eq!(read(&sum_13, 12), Err(5));
        let mut spare = MESSAGE;
        spare[15] = 0x41;
        assert_eq!(read(&spare, 12), Err(6));
    }

    #[test]
    fn refusals_in_order() {
        assert_eq!(write(&Layout::new(16, 1, 4, 1), &[], 0), Err(3));
        assert_eq!(write(&LAYOUT, &ROW[..7], 0), Err(8));
        assert_eq!(write(&LAYOUT, &ROW, 15), Err(10));
        assert_eq!(read(&MESSAGE[..8], 0), Err(1));
        assert_eq!(read(&[0x52, 0x53, 0x4D, 1, 0, 0, 0, 0, 0], 0), Err(2));
        assert_eq!(read(&[0x52, 0x53, 0x4D, 0, 1, 0, 0, 0, 0], 0), Err(3));
        assert_eq!(read(&MESSAGE[..15], 0), Err(4));
        assert_eq!(read(&MESSAGE, 11), Err(10));
    }
}
