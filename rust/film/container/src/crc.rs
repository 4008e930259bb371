//! The checksum at the end of each file: CRC-32 as PNG and gzip use it.

/// The CRC-32 of these bytes: polynomial EDB88320 (lowest bit first), start and end inverted.
pub fn crc32(bytes: &[u8]) -> u32 {
    !update(!0, bytes)
}

/// The same of bytes that stand in several places.
pub fn crc32_of<'a>(parts: impl Iterator<Item = &'a [u8]>) -> u32 {
    !parts.fold(!0, update)
}

/// Eight bytes are taken at a time: what each does to the checksum depends on how many follow it.
fn update(crc: u32, bytes: &[u8]) -> u32 {
    let mut eights = bytes.chunks_exact(8);
    let crc = eights.by_ref().fold(crc, |crc, eight| {
        let start = crc.to_le_bytes();
        let byte = |place: usize| eight[place] ^ start.get(place).copied().unwrap_or(0);
        (0..8).fold(0, |crc, place| crc ^ TABLES[7 - place][usize::from(byte(place))])
    });
    eights.remainder().iter().fold(crc, |crc, byte| TABLES[0][usize::from(crc as u8 ^ byte)] ^ (crc >> 8))
}

/// What each value of a byte does to the checksum when none to seven bytes follow it.
static TABLES: [[u32; 256]; 8] = tables();

const fn tables() -> [[u32; 256]; 8] {
    let mut tables = [table(); 8];
    let mut follow = 1;
    while follow < 8 {
        let mut byte = 0;
        while byte < 256 {
            let before = tables[follow - 1][byte];
            tables[follow][byte] = tables[0][(before & 0xFF) as usize] ^ (before >> 8);
            byte += 1;
        }
        follow += 1;
    }
    tables
}

const fn table() -> [u32; 256] {
    let mut table = [0; 256];
    let mut byte = 0;
    while byte < 256 {
        table[byte] = shifted_out(byte as u32);
        byte += 1;
    }
    table
}

const fn shifted_out(byte: u32) -> u32 {
    let mut crc = byte;
    let mut bit = 0;
    while bit < 8 {
        crc = if crc & 1 == 1 { 0xEDB8_8320 ^ (crc >> 1) } else { crc >> 1 };
        bit += 1;
    }
    crc
}

#[cfg(test)]
mod tests {
    use super::*;

    /// The check value that every description of this CRC gives.
    #[test]
    fn the_known_value() {
        assert_eq!(crc32(b"123456789"), 0xCBF4_3926);
        assert_eq!(crc32(b""), 0);
    }

    /// Cut anywhere, and against the definition bit by bit.
    #[test]
    fn parts_and_bits() {
        let bytes: Vec<u8> = (0..100_usize).map(|at| (at * at % 251) as u8).collect();
        let shift = |crc: u32, byte: &u8| shifted_out((crc ^ u32::from(*byte)) & 0xFF) ^ (crc >> 8);
        let bit_by_bit = |bytes: &[u8]| !bytes.iter().fold(!0, shift);
        for cut in 0..bytes.len() {
            let (first, second) = bytes.split_at(cut);
            assert_eq!(crc32(first), bit_by_bit(first));
            assert_eq!(crc32_of([first, second].into_iter()), bit_by_bit(&bytes));
        }
    }
}
