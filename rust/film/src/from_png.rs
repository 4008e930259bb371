//! Films from PNG files of one bit a pixel.

use png::{BitDepth, ColorType, Decoder, Info};

use crate::picture::Film;

/// The first bytes of a PNG file.
pub const MARK: &[u8] = b"\x89PNG\r\n\x1A\n";

/// Deflate makes at most so many bytes of one, so a false size is seen before memory is set aside for it.
const MOST_OF_ONE: usize = 1032;

/// Reads a PNG file of grey or of a palette, one bit a pixel; all others are refused by what they are.
pub fn decode(bytes: &[u8]) -> Result<Film, String> {
    let mut reader = Decoder::new(bytes).read_info().map_err(|error| error.to_string())?;
    let ink = ink(reader.info())?;
    let (width, height) = reader.info().size();
    let size = reader.output_buffer_size();
    if size / MOST_OF_ONE > bytes.len() {
        return Err(format!("the file is too short for {width} × {height} pixels"));
    }
    let mut packed = vec![0; size];
    reader.next_frame(&mut packed).map_err(|error| error.to_string())?;
    packed.iter_mut().for_each(|byte| *byte = ink.of(*byte));
    Ok(Film::new(width as usize, height as usize, packed))
}

/// Which of the two values of a pixel are black.
struct Ink {
    zero: bool,
    one: bool,
}

impl Ink {
    /// Eight pixels as eight bits of a film.
    fn of(&self, byte: u8) -> u8 {
        let all = |black: bool| if black { 0xFF } else { 0 };
        (byte & all(self.one)) | (!byte & all(self.zero))
    }
}

fn ink(info: &Info<'_>) -> Result<Ink, String> {
    if info.bit_depth != BitDepth::One {
        let bits = info.bit_depth as u8;
        return Err(format!("a PNG of {bits} bits a sample ({:?}): only PNG of one bit is read", info.color_type));
    }
    if info.trns.is_some() || info.animation_control.is_some() {
        return Err(String::from("a PNG that is transparent in parts or animated: no film is"));
    }
    match (info.color_type, info.palette.as_deref()) {
        (ColorType::Indexed, Some([first @ .., r, g, b])) => match (black(first), black(&[*r, *g, *b])) {
            (Some(zero), Some(one)) => Ok(Ink { zero, one }),
            _ => Err(String::from("a PNG whose palette is not two colours, black and white")),
        },
        _ => Ok(Ink { zero: true, one: false }),
    }
}

/// Is this colour black? None where it is neither black nor white.
fn black(colour: &[u8]) -> Option<bool> {
    match colour {
        [0, 0, 0] => Some(true),
        [255, 255, 255] => Some(false),
        _ => None,
    }
}

#[cfg(test)]
mod tests {
    use super::*;

    /// A PNG file of 9 × 2 pixels, whose rows are these bytes.
    fn file(colour: ColorType, depth: BitDepth, palette: Option<&'static [u8]>, rows: &[u8]) -> Vec<u8> {
        let mut bytes = Vec::new();
        let mut encoder = png::Encoder::new(&mut bytes, 9, 2);
        encoder.set_color(colour);
        encoder.set_depth(depth);
        if let Some(palette) = palette {
            encoder.set_palette(palette);
        }
        let mut writer = encoder.write_header().unwrap();
        writer.write_image_data(rows).unwrap();
        writer.finish().unwrap();
        bytes
    }

    const ROWS: [u8; 4] = [0x80, 0x80, 0x40, 0];

    #[test]
    fn black_is_ink() {
        let film = Film::new(9, 2, ROWS.to_vec());
        let turned = ROWS.map(|byte| !byte);
        assert_eq!(decode(&file(ColorType::Grayscale, BitDepth::One, None, &turned)), Ok(film.clone()));
        for (palette, rows) in [(&[0, 0, 0, 255, 255, 255], turned), (&[255, 255, 255, 0, 0, 0], ROWS)] {
            assert_eq!(decode(&file(ColorType::Indexed, BitDepth::One, Some(palette), &rows)), Ok(film.clone()));
        }
    }

    #[test]
    fn others_are_refused_by_name() {
        let one = |palette| file(ColorType::Indexed, BitDepth::One, Some(palette), &ROWS);
        for (bytes, said) in [
            (file(ColorType::Grayscale, BitDepth::Eight, None, &[0; 18]), "8 bits a sample (Grayscale)"),
            (file(ColorType::Rgb, BitDepth::Eight, None, &[0; 54]), "8 bits a sample (Rgb)"),
            (one(&[0, 0, 0, 255, 255, 254]), "palette"),
            (one(&[0, 0, 0]), "palette"),
        ] {
            let refused = decode(&bytes).unwrap_err();
            assert!(refused.contains(said), "{refused}");
        }
        let good = file(ColorType::Grayscale, BitDepth::One, None, &ROWS);
        assert!((0..good.len() - 12).all(|length| decode(&good[..length]).is_err()));
        let mut large = good;
        // A width and a height of 2^31 - 1, and the checksum of the chunk that holds them.
        large[16..24].copy_from_slice(&[0x7F, 0xFF, 0xFF, 0xFF, 0x7F, 0xFF, 0xFF, 0xFF]);
        let sum = container::crc32(&large[12..29]).to_be_bytes();
        large[29..33].copy_from_slice(&sum);
        assert!(decode(&large).is_err());
    }
}
