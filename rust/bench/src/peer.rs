//! Writing, reading and mending as an engineer would build them for speed, with tables and on packed bytes,
//! and with no proof: what is timed beside the library. It shares the refusals with the reference, where they
//! are marked to be inlined here, and touches its target only where it writes.

use dairyhour::{MOST_CHECKS, MOST_CHUNKS, MOST_FIELDS, SHORTEST_CHUNK};
use reference::bits::{bytes_for, is_packed, width};
use reference::field::Logs;
use reference::layout::{Layout, HEAD};
use reference::mend::admit_bits;
use reference::message::{admit_row, read_head, MARK_AND_VERSION};
use reference::refusal;

/// What is looked up for a chunk of nc bits.
struct Tables {
    logs: Logs,
    /// The total of the positions, from 1, of a chunk's ones.
    total: [u8; 256],
}

impl Tables {
    fn of(nc: usize) -> &'static Tables {
        &TABLES[nc - SHORTEST_CHUNK]
    }

    const fn new(nc: usize) -> Tables {
        let mut total = [0; 256];
        let mut chunk: usize = 1;
        while chunk < 1 << nc {
            let without_last_one = chunk & (chunk - 1);
            let last_one = nc - chunk.trailing_zeros() as usize;
            total[chunk] = total[without_last_one] + last_one as u8;
            chunk += 1;
        }
        Tables { logs: Logs::new(nc), total }
    }
}

static TABLES: [Tables; 6] =
    [Tables::new(3), Tables::new(4), Tables::new(5), Tables::new(6), Tables::new(7), Tables::new(8)];

/// Takes fields of up to 16 bits from bytes, one after another.
struct Fields<'a> {
    bytes: std::slice::Iter<'a, u8>,
    held: u32,
    count: usize,
}

impl<'a> Fields<'a> {
    fn of(bytes: &'a [u8]) -> Fields<'a> {
        Fields { bytes: bytes.iter(), held: 0, count: 0 }
    }

    fn take(&mut self, width: usize) -> u32 {
        while self.count < width {
            self.held = self.held << 8 | u32::from(*self.bytes.next().unwrap_or(&0));
            self.count += 8;
        }
        self.count -= width;
        self.held >> self.count & ((1 << width) - 1)
    }
}

/// Puts fields of up to 16 bits into bytes, one after another.
struct Filler<'a> {
    bytes: std::slice::IterMut<'a, u8>,
    held: u32,
    count: usize,
}

impl<'a> Filler<'a> {
    fn of(bytes: &'a mut [u8]) -> Filler<'a> {
        Filler { bytes: bytes.iter_mut(), held: 0, count: 0 }
    }

    fn put(&mut self, value: u32, width: usize) {
        self.held = self.held << width | value;
        self.count += width;
        while self.count >= 8 {
            self.count -= 8;
            self.push((self.held >> self.count) as u8);
        }
    }

    fn push(&mut self, byte: u8) {
        if let Some(place) = self.bytes.next() {
            *place = byte;
        }
    }

    /// The bits that do not fill a byte, with spare bits 0 behind them.
    fn end(mut self) {
        if self.count > 0 {
            self.push((self.held << (8 - self.count)) as u8);
        }
    }
}

pub fn write(layout: &Layout, row: &[u8], out: &mut [u8]) -> Result<usize, u32> {
    admit_row(layout, row, out.len())?;
    let length = layout.message_bytes();
    let (head, body) = out[..length].split_at_mut(HEAD);
    head[..5].copy_from_slice(&MARK_AND_VERSION);
    head[5..].copy_from_slice(&[layout.l1 as u8, layout.l2 as u8, layout.nc as u8, layout.r as u8]);
    write_fields(layout, row, body);
    Ok(length)
}

/// One pass over the chunks: each adds to its block's sum, to its chunk-string's and to every check.
fn write_fields(layout: &Layout, row: &[u8], body: &mut [u8]) {
    let nc = layout.nc;
    let tables = Tables::of(nc);
    let order = (1 << nc) - 1;
    let mut chunks = Fields::of(row);
    let mut message = Filler::of(body);
    let mut string_totals = [0; MOST_CHUNKS];
    let mut checks = [0; MOST_CHECKS];
    let block_width = width(layout.block_bits());
    for i in 0..layout.l1 {
        let mut block_total = 0;
        for (j, string_total) in string_totals[..layout.l2].iter_mut().enumerate() {
            let chunk = chunks.take(nc);
            if chunk == 0 {
                continue;
            }
            let ones = chunk.count_ones() as usize;
            let total = usize::from(tables.total[chunk as usize]);
            block_total += j * nc * ones + total;
            *string_total += i * nc * ones + total;
            let mut exponent = usize::from(tables.logs.exponent[chunk as usize]);
            for check in &mut checks[..layout.r] {
                *check ^= tables.logs.power[exponent];
                exponent += i * layout.l2 + j;
                if exponent >= order {
                    exponent -= order;
                }
            }
        }
        message.put((block_total % (layout.block_bits() + 1)) as u32, block_width);
    }
    let string_width = width(layout.string_bits());
    for total in &string_totals[..layout.l2] {
        message.put((total % (layout.string_bits() + 1)) as u32, string_width);
    }
    for check in &checks[..layout.r] {
        message.put(u32::from(*check), nc);
    }
    message.end();
}

pub fn read(message: &[u8], out: &mut [u16]) -> Result<Layout, u32> {
    let (layout, body) = read_head(message)?;
    let mut values = [0; MOST_FIELDS];
    read_fields(&layout, body, &mut values)?;
    if !is_packed(body, layout.field_bits()) {
        return Err(refusal::SPARE_BIT);
    }
    let count = layout.fields();
    match out.get_mut(..count) {
        Some(target) => target.copy_from_slice(&values[..count]),
        None => return Err(refusal::SHORT_TARGET),
    }
    Ok(layout)
}

fn read_fields(layout: &Layout, body: &[u8], values: &mut [u16]) -> Result<(), u32> {
    let mut fields = Fields::of(body);
    let (sums, checks) = values.split_at_mut(layout.l1 + layout.l2);
    let (block_sums, string_sums) = sums.split_at_mut(layout.l1);
    for (part, most) in [(block_sums, layout.block_bits()), (string_sums, layout.string_bits())] {
        let width = width(most);
        for value in part {
            *value = fields.take(width) as u16;
            if usize::from(*value) > most {
                return Err(refusal::SUM);
            }
        }
    }
    for check in &mut checks[..layout.r] {
        *check = fields.take(layout.nc) as u16;
    }
    Ok(())
}

/// Levenshtein's rule for the one string. With D the sum that is missing: up to the number of ones, a 0 with
/// D ones behind it was lost; above it, a 1 with D − ones − 1 zeros before it.
pub fn mend(w: usize, sum: usize, bits: &[u8], out: &mut [u8]) -> Result<(), u32> {
    admit_bits(w, sum, bits, out.len())?;
    let bytes = Tables::of(8);
    let (mut ones, mut total) = (0, 0);
    for (i, byte) in bits.iter().enumerate() {
        let here = byte.count_ones() as usize;
        ones += here;
        total += 8 * i * here + usize::from(bytes.total[usize::from(*byte)]);
    }
    let missing = (sum + w + 1 - total % (w + 1)) % (w + 1);
    if missing <= ones {
        insert(w, bits, place_behind(bits, ones - missing, 0x00), false, out);
    } else {
        insert(w, bits, place_behind(bits, missing - ones - 1, 0xFF), true, out);
    }
    Ok(())
}

/// The first place with so many ones before it, where every byte is first taken exclusive or with `flip`
/// (so 0xFF counts the zeros).
fn place_behind(bits: &[u8], count: usize, flip: u8) -> usize {
    let mut left = count;
    for (i, byte) in bits.iter().enumerate() {
        let here = (byte ^ flip).count_ones() as usize;
        if here >= left {
            let mut rest = byte ^ flip;
            let mut place = 8 * i;
            while left > 0 {
                left -= usize::from(rest >> 7);
                rest <<= 1;
                place += 1;
            }
            return place;
        }
        left -= here;
    }
    8 * bits.len()
}

/// The string of w bits that has `bit` at `place` and the given bits before and behind it.
fn insert(w: usize, bits: &[u8], place: usize, bit: bool, out: &mut [u8]) {
    let at = place / 8;
    let byte = |i: usize| bits.get(i).copied().unwrap_or(0);
    out[..at].copy_from_slice(&bits[..at]);
    let before = !(0xFF >> (place % 8));
    let own = u8::from(bit) << (7 - place % 8);
    out[at] = byte(at) & before | own | (byte(at) & !before) >> 1;
    for (i, target) in out.iter_mut().enumerate().take(bytes_for(w)).skip(at + 1) {
        *target = byte(i - 1) << 7 | byte(i) >> 1;
    }
}

#[cfg(test)]
mod tests {
    use super::*;
    use dairyhour::LONGEST_ROW;
    use reference::bits::pack;
    use reference::random::Random;

    #[test]
    fn writes_and_reads_as_the_plain_part_does() {
        let mut random = Random::new(1);
        for layout in Layout::every_legal_with_checks(&mut random) {
            let row = pack(&random.bits(layout.row_bits()));
            let message = reference::write(&layout, &row, 200).expect("a legal layout and its row");
            let mut out = [0xA5; 200];
            assert_eq!(write(&layout, &row, &mut out), Ok(message.len()));
            assert_eq!(out[..message.len()], message);
            assert!(out[message.len()..].iter().all(|byte| *byte == 0xA5));

            let mut damaged = message.clone();
            if random.below(2) == 0 {
                let place = random.below(damaged.len());
                damaged[place] ^= 1 << random.below(8);
            }
            let mut fields = [0xA5A5; 300];
            let expected = reference::read(&damaged, 300);
            assert_eq!(read(&damaged, &mut fields), expected.as_ref().map(|read| read.0).map_err(|number| *number));
            let written = expected.map_or(Vec::new(), |read| read.1);
            assert_eq!(fields[..written.len()], written);
            assert!(fields[written.len()..].iter().all(|field| *field == 0xA5A5));
        }
    }

    #[test]
    fn mends_as_the_plain_part_does() {
        let mut random = Random::new(2);
        for w in 1..=LONGEST_ROW {
            for sum in [0, w, random.below(w + 1)] {
                let bits = pack(&random.bits(w - 1));
                let mut out = [0xA5; 256];
                assert_eq!(mend(w, sum, &bits, &mut out), Ok(()));
                assert_eq!(Ok(out[..bytes_for(w)].to_vec()), reference::mend(w, sum, &bits, 256));
                assert!(out[bytes_for(w)..].iter().all(|byte| *byte == 0xA5));
            }
        }
    }
}
