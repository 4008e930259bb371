//! The rows of real films.

use reference::bits::{bytes_for, unpack};
use reference::random::Random;

/// A film and its width.
struct Film {
    width: usize,
    file: &'static [u8],
}

pub const COLDFIRE_N2040: &[u8] = include_bytes!("../../films/coldfire-fcu-n2040.pbm");
pub const ECC83_N60: &[u8] = include_bytes!("../../films/ecc83-bcu-n60.pbm");

const FILMS: [Film; 10] = [
    Film { width: 60, file: ECC83_N60 },
    Film { width: 60, file: include_bytes!("../../films/rs232-top-n60.pbm") },
    Film { width: 378, file: include_bytes!("../../films/coldfire-fcu-n378.pbm") },
    Film { width: 378, file: include_bytes!("../../films/picprog-bcu-n378.pbm") },
    Film { width: 378, file: include_bytes!("../../films/ecc83-bcu-n378.pbm") },
    Film { width: 378, file: include_bytes!("../../films/eagle-top-n378.pbm") },
    Film { width: 2040, file: COLDFIRE_N2040 },
    Film { width: 2040, file: include_bytes!("../../films/coldfire-in1-n2040.pbm") },
    Film { width: 2040, file: include_bytes!("../../films/picprog-bcu-n2040.pbm") },
    Film { width: 2040, file: include_bytes!("../../films/eagle-top-n2040.pbm") },
];

/// The packed rows of a PBM file (`P4`) of this width, which has two lines of head.
pub fn packed_rows(file: &'static [u8], width: usize) -> Vec<&'static [u8]> {
    let body = file.splitn(3, |byte| *byte == b'\n').nth(2).unwrap_or_default();
    body.chunks_exact(bytes_for(width)).collect()
}

/// The first `n` bits, at most as many as the longest row has, of any row of a film that is wide enough and no wider than need be; and of the
/// next row below it, or from the top, that is another one.
pub fn film_rows(n: usize, random: &mut Random) -> (Vec<bool>, Vec<bool>) {
    let width = FILMS.iter().map(|film| film.width).filter(|width| *width >= n).min().unwrap_or(0);
    let films: Vec<&Film> = FILMS.iter().filter(|film| film.width == width).collect();
    let film = films[random.below(films.len())];
    let rows = packed_rows(film.file, width);
    let place = random.below(rows.len());
    let row = unpack(rows[place], n);
    let below = rows[place..].iter().chain(&rows[..place]);
    let neighbour = below.map(|next| unpack(next, n)).find(|next| *next != row);
    (row.clone(), neighbour.unwrap_or(row))
}
