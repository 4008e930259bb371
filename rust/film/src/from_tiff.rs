//! Films from TIFF files of one bit a pixel. The crate `tiff` reads the tags; in the version that is built from it takes a
//! sample for a byte, so the strips are read here.

use std::io::{Cursor, Read};

use container::bytes_for;
use flate2::read::ZlibDecoder;
use tiff::decoder::Decoder;
use tiff::tags::Tag;
use weezl::{decode::Decoder as Lzw, BitOrder};

use crate::picture::Film;

/// How TIFF files start: of either byte order, and with numbers of 64 bits.
pub const MARKS: [&[u8]; 4] = [b"II*\0", b"MM\0*", b"II+\0", b"MM\0+"];

/// No compression that is read makes more bytes of one.
const MOST_OF_ONE: usize = 4096;

type Answer<T> = Result<T, String>;

/// Reads a TIFF file in strips, one bit a pixel, as it is, by PackBits, by LZW or by Deflate; all others are refused by
/// what they are.
pub fn decode(bytes: &[u8]) -> Answer<Film> {
    let mut tags = Tags(Decoder::new(Cursor::new(bytes)).map_err(|error| error.to_string())?);
    let white_is_zero = tags.fit_a_film()?;
    let (width, height) = tags.0.dimensions().map_err(|error| error.to_string())?;
    let (width, height) = (width as usize, height as usize);
    if width == 0 || height == 0 {
        return Err(format!("a film of {width} × {height} has no rows or no columns"));
    }
    let strips = tags.strips()?;
    let mut packed = Vec::new();
    for (number, (offset, length)) in strips.places.iter().enumerate() {
        let rows = strips.rows.min(height.saturating_sub(number.saturating_mul(strips.rows)));
        let strip = stored(bytes, *offset, *length)
            .and_then(|stored| strips.unpacked(stored, bytes_for(width).saturating_mul(rows)))
            .ok_or_else(|| format!("strip {number} is damaged, or ends too early"))?;
        packed.extend(strip);
    }
    if packed.len() != bytes_for(width) * height {
        return Err(format!("the strips do not make up {height} rows"));
    }
    if !white_is_zero {
        packed.iter_mut().for_each(|byte| *byte = !*byte);
    }
    Ok(Film::new(width, height, packed))
}

/// The bytes of a strip as they stand in the file.
fn stored(bytes: &[u8], offset: u64, length: u64) -> Option<&[u8]> {
    let offset = usize::try_from(offset).ok()?;
    bytes.get(offset..)?.get(..usize::try_from(length).ok()?)
}

struct Tags<'a>(Decoder<Cursor<&'a [u8]>>);

impl Tags<'_> {
    /// The value of a tag, or what stands for it where it is not there.
    fn number(&mut self, tag: Tag, default: u32) -> Answer<u32> {
        let found = self.0.find_tag_unsigned(tag).map_err(|error| error.to_string())?;
        Ok(found.unwrap_or(default))
    }

    fn numbers(&mut self, tag: Tag) -> Answer<Vec<u64>> {
        let found = self.0.find_tag_unsigned_vec(tag).map_err(|error| error.to_string())?;
        found.ok_or_else(|| String::from("a TIFF in tiles: only TIFF in strips is read"))
    }

    /// Is this one page of one bit a pixel, as it is seen? Answers whether white is 0.
    fn fit_a_film(&mut self) -> Answer<bool> {
        let samples = self.number(Tag::SamplesPerPixel, 1)?;
        let bits = self.0.find_tag_unsigned_vec::<u32>(Tag::BitsPerSample).map_err(|error| error.to_string())?;
        let bits = bits.and_then(|bits| bits.first().copied()).unwrap_or(1);
        if (samples, bits) != (1, 1) {
            return Err(format!("a TIFF of {samples} × {bits} bits a pixel: only TIFF of one bit is read"));
        }
        if self.0.more_images() {
            return Err(String::from("a TIFF of several pages: a film is one"));
        }
        for (tag, name) in [(Tag::Orientation, "orientation"), (Tag::Predictor, "predictor")] {
            match self.number(tag, 1)? {
                1 => {}
                other => return Err(format!("a TIFF of {name} {other}: only 1 is read")),
            }
        }
        match self.number(Tag::PhotometricInterpretation, 0)? {
            0 => Ok(true),
            1 => Ok(false),
            other => Err(format!("a TIFF of colours (interpretation {other}): only black and white is read")),
        }
    }

    fn strips(&mut self) -> Answer<Strips> {
        let offsets = self.numbers(Tag::StripOffsets)?;
        let lengths = self.numbers(Tag::StripByteCounts)?;
        Ok(Strips {
            places: offsets.into_iter().zip(lengths).collect(),
            rows: self.number(Tag::RowsPerStrip, u32::MAX)? as usize,
            packing: match self.number(Tag::Compression, 1)? {
                1 => Packing::None,
                5 => Packing::Lzw,
                8 | 32946 => Packing::Deflate,
                32773 => Packing::PackBits,
                fax @ 2..=4 => return Err(format!("a TIFF packed as a fax (CCITT, compression {fax}): {READ}")),
                other => return Err(format!("a TIFF of compression {other}: {READ}")),
            },
            turned: self.number(Tag::FillOrder, 1)? == 2,
        })
    }
}

/// What is said where a file is packed in another way.
const READ: &str = "only PackBits, LZW, Deflate and no compression are read";

enum Packing {
    None,
    Lzw,
    Deflate,
    PackBits,
}

/// Where the strips are and how they are stored.
struct Strips {
    places: Vec<(u64, u64)>,
    /// Rows of each strip but the last.
    rows: usize,
    packing: Packing,
    /// Does the first bit of a byte stand lowest?
    turned: bool,
}

impl Strips {
    /// The first so many bytes of a strip, if it has them.
    fn unpacked(&self, stored: &[u8], due: usize) -> Option<Vec<u8>> {
        if due / MOST_OF_ONE > stored.len() {
            return None;
        }
        let turn = |byte: &u8| if self.turned { byte.reverse_bits() } else { *byte };
        let stored: Vec<u8> = stored.iter().map(turn).collect();
        let mut bytes = match self.packing {
            Packing::None => stored,
            Packing::PackBits => unpack_bits(&stored, due),
            Packing::Lzw => unpack_lzw(&stored, due),
            Packing::Deflate => {
                let mut bytes = Vec::new();
                ZlibDecoder::new(&stored[..]).take(due as u64).read_to_end(&mut bytes).ok()?;
                bytes
            }
        };
        bytes.truncate(due);
        (bytes.len() == due).then_some(bytes)
    }
}

/// PackBits: a number below 128 stands before so many bytes and one more, one above 128 before a byte that comes 257 times
/// less the number; 128 stands for nothing.
fn unpack_bits(stored: &[u8], due: usize) -> Vec<u8> {
    let mut bytes = Vec::new();
    let mut rest = stored.iter();
    while bytes.len() < due {
        match rest.next() {
            None => break,
            Some(128) => {}
            Some(number @ 0..=127) => bytes.extend(rest.by_ref().take(usize::from(*number) + 1)),
            Some(number) => {
                bytes.extend(rest.next().into_iter().flat_map(|byte| vec![*byte; 257 - usize::from(*number)]))
            }
        }
    }
    bytes
}

fn unpack_lzw(stored: &[u8], due: usize) -> Vec<u8> {
    let mut lzw = Lzw::with_tiff_size_switch(BitOrder::Msb, 8);
    let mut bytes = vec![0; due];
    let (mut from, mut to) = (0, 0);
    while to < due {
        let done = lzw.decode_bytes(&stored[from..], &mut bytes[to..]);
        from += done.consumed_in;
        to += done.consumed_out;
        if done.status.is_err() || (done.consumed_in, done.consumed_out) == (0, 0) {
            break;
        }
    }
    bytes.truncate(to);
    bytes
}

#[cfg(test)]
mod tests {
    use super::*;
    use std::io::Write;

    const ROWS: [u8; 6] = [0x80, 0x80, 0x40, 0, 0xFF, 0x80];

    /// The tags of a film of 9 × 3, with others in their place or beside them.
    fn file(tags: &[(u16, u32)], strips: &[&[u8]]) -> Vec<u8> {
        let mut all = std::collections::BTreeMap::from([(256, 9), (257, 3), (262, 0), (278, 2)]);
        all.extend(tags.iter().copied());
        let mut bytes = vec![b'I', b'I', 42, 0, 0, 0, 0, 0];
        let mut pairs = [Vec::new(), Vec::new()];
        for strip in strips {
            pairs[0].extend((bytes.len() as u32).to_le_bytes());
            pairs[1].extend((strip.len() as u32).to_le_bytes());
            bytes.extend(*strip);
        }
        for (tag, pair) in [273, 279].into_iter().zip(pairs) {
            // One number stands in the tag itself.
            let alone = <[u8; 4]>::try_from(&pair[..]).map(u32::from_le_bytes);
            all.insert(tag, alone.unwrap_or(bytes.len() as u32));
            bytes.extend(pair);
        }
        let place = (bytes.len() as u32).to_le_bytes();
        bytes[4..8].copy_from_slice(&place);
        bytes.extend((all.len() as u16).to_le_bytes());
        for (tag, value) in all {
            let many = if matches!(tag, 273 | 279) { strips.len() as u32 } else { 1 };
            bytes.extend([tag.to_le_bytes(), [4, 0]].concat());
            bytes.extend([many.to_le_bytes(), value.to_le_bytes()].concat());
        }
        bytes.extend([0; 4]);
        bytes
    }

    fn zlib(bytes: &[u8]) -> Vec<u8> {
        let mut encoder = flate2::write::ZlibEncoder::new(Vec::new(), flate2::Compression::default());
        encoder.write_all(bytes).unwrap();
        encoder.finish().unwrap()
    }

    fn lzw(bytes: &[u8]) -> Vec<u8> {
        weezl::encode::Encoder::with_tiff_size_switch(BitOrder::Msb, 8).encode(bytes).unwrap()
    }

    #[test]
    fn each_way_of_storing() {
        let film = Ok(Film::new(9, 3, ROWS.to_vec()));
        let (first, second) = ROWS.split_at(4);
        let turned = |bytes: &[u8]| bytes.iter().map(|byte| byte.reverse_bits()).collect::<Vec<u8>>();
        let black_is_zero = ROWS.map(|byte| !byte);
        assert_eq!(decode(&file(&[], &[first, second])), film);
        assert_eq!(decode(&file(&[(258, 1), (277, 1), (274, 1)], &[first, second])), film);
        assert_eq!(decode(&file(&[(266, 2)], &[&turned(first), &turned(second)])), film);
        assert_eq!(decode(&file(&[(262, 1), (278, 3)], &[&black_is_zero])), film);
        assert_eq!(decode(&file(&[(259, 8)], &[&zlib(first), &zlib(second)])), film);
        assert_eq!(decode(&file(&[(259, 32946)], &[&zlib(first), &zlib(second)])), film);
        assert_eq!(decode(&file(&[(259, 5)], &[&lzw(first), &lzw(second)])), film);
        let bits: [&[u8]; 2] = [&[255, 0x80, 128, 1, 0x40, 0], &[0, 0xFF, 0, 0x80]];
        assert_eq!(decode(&file(&[(259, 32773)], &bits)), film);
    }

    #[test]
    fn others_are_refused_by_name() {
        let strips = ROWS.split_at(4);
        let strips = [strips.0, strips.1];
        for (tags, said) in [
            (&[(258, 8)][..], "1 × 8 bits a pixel"),
            (&[(277, 3)], "3 × 1 bits a pixel"),
            (&[(262, 3)], "interpretation 3"),
            (&[(274, 3)], "orientation 3"),
            (&[(259, 4)], "a fax (CCITT, compression 4)"),
            (&[(259, 7)], "compression 7"),
            (&[(256, 0)], "0 × 3"),
            (&[(256, 17)], "strip 0 is damaged"),
            (&[(257, 2_000_000_000), (278, 2_000_000_000)], "strip 0 is damaged"),
            (&[(278, 1)], "do not make up 3 rows"),
            (&[(259, 8)], "strip 0 is damaged"),
            (&[(259, 5), (256, 900)], "strip 0 is damaged"),
        ] {
            let refused = decode(&file(tags, &strips)).unwrap_err();
            assert!(refused.contains(said), "{refused}");
        }
        let good = file(&[], &strips);
        assert!((4..good.len() - 4).all(|length| decode(&good[..length]).is_err()));
    }
}
