//! The rows that are timed, as packed bytes.

use reference::bits::pack;
use reference::random::Random;

use crate::films::packed_rows;

/// Rows of one kind, gone through again and again.
pub struct Rows {
    pub kind: &'static str,
    pub rows: Vec<Vec<u8>>,
}

/// How many different rows a kind has, if it has so many.
const ROWS: usize = 64;

/// Rows of `n` bits of every kind; `film` is a PBM file (`P4`) of that width.
pub fn every_kind(n: usize, film: &'static [u8]) -> [Rows; 4] {
    let mut random = Random::new(1);
    let of = |kind, rows| Rows { kind, rows };
    [
        of("random", (0..ROWS).map(|_| row(n, |_| random.below(2) == 1)).collect()),
        of("blank", vec![row(n, |_| false), row(n, |_| true)]),
        of("striped", (1..=ROWS).map(|width| row(n, |place| place / width % 2 == 1)).collect()),
        of("film", film_rows(n, film)),
    ]
}

fn row(n: usize, bit: impl FnMut(usize) -> bool) -> Vec<u8> {
    pack(&(0..n).map(bit).collect::<Vec<bool>>())
}

/// Rows from all over a film.
fn film_rows(n: usize, film: &'static [u8]) -> Vec<Vec<u8>> {
    let rows = packed_rows(film, n);
    let step = rows.len() / ROWS + 1;
    rows.into_iter().step_by(step).map(<[u8]>::to_vec).collect()
}
