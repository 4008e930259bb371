//! Layouts: the one that is given, or a sensible one for a width.

use dairyhour::{Layout, LONGEST_CHUNK, LONGEST_ROW, MOST_CHECKS, MOST_LOSSES, SHORTEST_CHUNK};

/// Reads `l1,l2,nc,r`.
pub fn parse(text: &str) -> Result<Layout, String> {
    let numbers: Vec<usize> = text.split(',').filter_map(|part| part.trim().parse().ok()).collect();
    let layout = match (&numbers[..], text.split(',').count()) {
        (&[l1, l2, nc, r], 4) => Layout { l1, l2, nc, r },
        _ => return Err(String::from("four numbers l1,l2,nc,r are wanted, as in 15,17,8,16")),
    };
    if is_legal(layout) {
        return Ok(layout);
    }
    let nc = format!("nc is {SHORTEST_CHUNK} to {LONGEST_CHUNK}");
    Err(format!("not legal: l1 and l2 are at least 1, {nc}, l1 × l2 at most 2^nc − 1, and r at most {MOST_CHECKS}"))
}

/// The library's own verdict: of a row of the right length, only an unlawful layout is refused by 3.
fn is_legal(layout: Layout) -> bool {
    dairyhour::write(layout, &[], &mut []) != Err(dairyhour::Refusal::Layout)
}

/// The layout as four bytes, which a legal one fits.
pub fn bytes(layout: Layout) -> [u8; 4] {
    [layout.l1 as u8, layout.l2 as u8, layout.nc as u8, layout.r as u8]
}

/// A layout for films of this width. A film that is wider than the longest row is cut into as few panels as will do.
pub fn for_width(width: usize) -> Layout {
    let panels = (width + LONGEST_ROW - 1) / LONGEST_ROW;
    let columns = (width + panels - 1) / panels;
    let mut best = Layout { l1: 15, l2: 17, nc: 8, r: MOST_CHECKS };
    for layout in candidates(columns) {
        if cost(layout, columns) < cost(best, columns) {
            best = layout;
        }
    }
    best
}

/// The legal layouts with at least so many bits, no more blocks than chunks in a block, and checks as far as they are of
/// use: as many checks as chunks fix the row.
fn candidates(columns: usize) -> impl Iterator<Item = Layout> {
    let legal = |nc: usize| (1..=15).flat_map(move |l1| (l1..(1 << nc) / l1 + 1).map(move |l2| (l1, l2, nc)));
    (SHORTEST_CHUNK..=LONGEST_CHUNK)
        .flat_map(legal)
        .filter(move |(l1, l2, nc)| l1 * l2 < 1 << nc && l1 * l2 * nc >= columns)
        .map(|(l1, l2, nc)| Layout { l1, l2, nc, r: MOST_CHECKS.min(l1 * l2) })
}

/// What speaks against a layout, the weightiest first: a pad of over an eighth; fewer chunks, and so fewer checks of use,
/// than bits can be lost; blocks and chunk-strings of very different length; the pad; short chunks; blocks and chunk-strings of
/// different length.
fn cost(layout: Layout, columns: usize) -> (bool, bool, bool, usize, usize, usize) {
    let Layout { l1, l2, nc, .. } = layout;
    let pad = l1 * l2 * nc - columns;
    (pad > columns / 8 + 2, l1 * l2 < MOST_LOSSES, l2 > 4 * l1, pad, LONGEST_CHUNK - nc, l2 - l1)
}

#[cfg(test)]
mod tests {
    use super::*;

    #[test]
    fn layouts_as_text() {
        assert_eq!(parse("15,17,8,16"), Ok(Layout { l1: 15, l2: 17, nc: 8, r: 16 }));
        assert_eq!(parse("5, 3, 4, 0"), Ok(Layout { l1: 5, l2: 3, nc: 4, r: 0 }));
        for text in ["", "1,2,3", "1,2,3,4,5", "1,2,3,x", "1,,3,4", "0,1,3,1", "16,1,4,1", "1,1,2,1", "1,1,8,17"] {
            assert!(parse(text).is_err(), "{text}");
        }
    }

    #[test]
    fn every_width_has_a_legal_layout_with_little_pad() {
        for width in 1..=LONGEST_ROW {
            let layout = for_width(width);
            let n = layout.l1 * layout.l2 * layout.nc;
            assert!(is_legal(layout) && n >= width, "{width}: {layout:?}");
            assert!(n - width <= width / 8 + 2, "{width}: {layout:?}");
            assert!(width < 47 || layout.r >= 12, "{width}: {layout:?}");
        }
    }

    #[test]
    fn some_widths() {
        let chosen = |width| bytes(for_width(width));
        assert_eq!(chosen(60), [3, 4, 5, 12]);
        assert_eq!(chosen(378), [6, 9, 7, 16]);
        assert_eq!(chosen(1000), [9, 14, 8, 16]);
        assert_eq!(chosen(2040), [15, 17, 8, 16]);
        assert_eq!(chosen(2041), chosen(1021));
        assert_eq!(chosen(8160), [15, 17, 8, 16]);
    }
}
