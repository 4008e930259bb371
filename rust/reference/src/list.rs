//! Listing: "take all strings of n bits in dictionary order, from all zeros to all ones, and keep those that are
//! consistent, in that order".

use crate::bits::{is_packed, pack, push_number, unpack};
use crate::layout::Layout;
use crate::limits::{LONGEST_LIST, MOST_LOSSES};
use crate::message;
use crate::refusal;
use crate::sum::sum;

/// The most bits of a row for which every row is tried.
pub const SMALL: usize = 20;

/// What listing is asked for: the rows of this layout that have these numbers, block sums, chunk-string sums and
/// checks, and from which the received bits come by deleting bits.
#[derive(Clone, Debug, PartialEq, Eq)]
pub struct Question {
    pub layout: Layout,
    pub fields: Vec<u16>,
    pub received: Vec<bool>,
}

impl Question {
    /// k, the bits that were deleted.
    pub fn losses(&self) -> usize {
        self.layout.row_bits() - self.received.len()
    }

    /// "A row X is consistent if it has n bits, the received row comes from X by deleting k bits, and X's message
    /// under the layout equals the given one byte for byte." Messages of one layout are equal if their numbers are.
    pub fn is_consistent(&self, row: &[bool]) -> bool {
        row.len() == self.layout.row_bits()
            && comes_from(&self.received, row)
            && self.has_block_sums(row)
            && message::fields(&self.layout, row) == self.fields
    }

    /// A part of the numbers that is quickly compared, and that few rows have.
    fn has_block_sums(&self, row: &[bool]) -> bool {
        let blocks = row.chunks(self.layout.block_bits());
        blocks.zip(&self.fields).all(|(block, due)| sum(block) == usize::from(*due))
    }
}

/// Does striking out some places of the row leave the received bits in their order? A received bit may be taken for
/// the first place of the row that has it: that leaves the most places for the bits behind it.
pub fn comes_from(received: &[bool], row: &[bool]) -> bool {
    let mut left = received;
    for bit in row {
        match left.split_first() {
            Some((first, rest)) if first == bit => left = rest,
            _ => {}
        }
    }
    left.is_empty()
}

/// What is asked for, unless "1, 2, 3, 4, 5, 6, 7, 8" refuse.
pub fn question(message: &[u8], row: &[u8], m: usize) -> Result<Question, u32> {
    let (layout, fields) = message::read(message, usize::MAX)?;
    let n = layout.row_bits();
    if m > n || n - m > MOST_LOSSES {
        return Err(refusal::LOSSES);
    }
    if !is_packed(row, m) {
        return Err(refusal::PACKING);
    }
    Ok(Question { layout, fields, received: unpack(row, m) })
}

/// What listing answers, and what it puts to the start of the list slice, whose other bytes are as at entry.
#[derive(Clone, Debug, PartialEq, Eq)]
pub struct Listed {
    pub answer: Result<usize, u32>,
    pub written: Vec<u8>,
}

/// The consistent rows, packed and in dictionary order, or the number of the refusal by 1 to 8.
#[derive(Clone, Debug, PartialEq, Eq)]
pub struct Judged {
    pub rows: Result<Vec<Vec<u8>>, u32>,
}

impl Judged {
    /// What a list slice of `room` bytes gets. "Fit" means whole rows in the part that is used.
    pub fn listed(&self, room: usize) -> Listed {
        let rows = match &self.rows {
            Ok(rows) => rows,
            Err(number) => return Listed { answer: Err(*number), written: Vec::new() },
        };
        let fit = match rows.first() {
            Some(row) => room.min(LONGEST_LIST) / row.len(),
            None => 0,
        };
        let answer = if rows.len() > fit { Err(refusal::LIST_FULL) } else { Ok(rows.len()) };
        Listed { answer, written: rows.iter().take(fit).flatten().copied().collect() }
    }
}

/// Judges by one of the listers below.
pub fn judge_by(lister: impl Fn(&Question) -> Vec<Vec<bool>>, message: &[u8], row: &[u8], m: usize) -> Judged {
    let packed = |question: &Question| lister(question).iter().map(|row| pack(row)).collect();
    Judged { rows: question(message, row, m).map(|question| packed(&question)) }
}

/// Judges by the definition at its word. Where none of 1 to 8 refuses, the layout must be small.
pub fn judge(message: &[u8], row: &[u8], m: usize) -> Judged {
    judge_by(by_trying_all, message, row, m)
}

/// What listing does with a list slice of `room` bytes, under a small layout.
pub fn list(message: &[u8], row: &[u8], m: usize, room: usize) -> Listed {
    judge(message, row, m).listed(room)
}

/// The list of a small layout: every row is tried, from all zeros to all ones.
pub fn by_trying_all(question: &Question) -> Vec<Vec<bool>> {
    let n = question.layout.row_bits();
    assert!(n <= SMALL, "rows of {n} bits are too many to try them all");
    let mut row = Vec::with_capacity(n);
    let mut found = Vec::new();
    for number in 0..1 << n {
        row.clear();
        push_number(&mut row, number, n);
        if question.is_consistent(&row) {
            found.push(row.clone());
        }
    }
    found
}

/// The same list for larger layouts with few losses or short blocks. The rows are put together bit by bit, 0 before
/// 1, and only those from which the received bits come and whose blocks have their sums.
pub fn by_supersequences(question: &Question) -> Vec<Vec<bool>> {
    let mut walk = Walk { question, row: Vec::new(), found: Vec::new() };
    walk.go_on(0, question.losses());
    walk.found
}

/// The first bits of a row, and the rows found before it.
struct Walk<'a> {
    question: &'a Question,
    row: Vec<bool>,
    found: Vec<Vec<bool>>,
}

impl Walk<'_> {
    /// Every row that starts with the bits in hand, which took `taken` received bits and leave so many losses.
    fn go_on(&mut self, taken: usize, losses: usize) {
        let Question { layout, fields, received } = self.question;
        let nb = layout.block_bits();
        if self.row.len() % nb == 0 {
            let blocks = self.row.len() / nb;
            if blocks > 0 && sum(&self.row[(blocks - 1) * nb..]) != usize::from(fields[blocks - 1]) {
                return;
            }
            if blocks == layout.l1 {
                if self.question.is_consistent(&self.row) {
                    self.found.push(self.row.clone());
                }
                return;
            }
        }
        for bit in [false, true] {
            self.row.push(bit);
            if received.get(taken) == Some(&bit) {
                self.go_on(taken + 1, losses);
            } else if losses > 0 {
                self.go_on(taken, losses - 1);
            }
            self.row.pop();
        }
    }
}

#[cfg(test)]
mod tests {
    use super::*;
    use crate::bits::digits;
    use crate::message::{encode, fields};
    use crate::random::Random;
    use crate::samples::{lose, row, Kind, Losses};

    fn bits(digits: &str) -> Vec<bool> {
        digits.chars().map(|digit| digit == '1').collect()
    }

    /// The list for these layout numbers, sums and checks, and received bits.
    fn listed(layout: [usize; 4], numbers: &[u16], received: &str, room: usize) -> Listed {
        let [l1, l2, nc, r] = layout;
        let message = encode(&Layout::new(l1, l2, nc, r), numbers);
        list(&message, &pack(&bits(received)), received.len(), room)
    }

    fn rows(rows: &[&str]) -> Listed {
        Listed { answer: Ok(rows.len()), written: rows.iter().flat_map(|row| pack(&bits(row))).collect() }
    }

    #[test]
    fn cases_3_to_6() {
        assert_eq!(listed([1, 1, 3, 0], &[0, 0], "", 9), rows(&["000", "101"]));
        assert_eq!(listed([1, 1, 3, 0], &[0, 0], "00", 9), rows(&["000"]));
        assert_eq!(listed([1, 1, 3, 0], &[0, 1], "", 9), rows(&[]));
        assert_eq!(listed([1, 1, 3, 0], &[0, 1], "", 0), rows(&[]));
        assert_eq!(listed([1, 1, 3, 1], &[0, 0, 5], "", 9), rows(&["101"]));
    }

    #[test]
    fn cases_7_and_8() {
        assert_eq!(listed([2, 1, 4, 0], &[2, 0, 1], "001111", 9), rows(&["01001111"]));
        assert_eq!(listed([2, 1, 4, 0], &[2, 0, 2], "001111", 2), rows(&["00110110", "00111001"]));
        let full = Listed { answer: Err(9), written: vec![0x36] };
        assert_eq!(listed([2, 1, 4, 0], &[2, 0, 2], "001111", 1), full);
    }

    #[test]
    fn case_12() {
        let layout = Layout::new(5, 1, 3, 1);
        let message = encode(&layout, &fields(&layout, &[false; 15]));
        assert!(list(&message, &[0], 3, 100).answer.is_ok());
        assert_eq!(list(&message, &[0], 2, 100).answer, Err(7));
    }

    #[test]
    fn refusals_in_order() {
        let layout = Layout::new(2, 1, 4, 0);
        let message = encode(&layout, &[2, 0, 2]);
        assert_eq!(list(&message[..8], &[1], 99, 0).answer, Err(1));
        assert_eq!(list(&message[..10], &[1], 99, 0).answer, Err(4));
        assert_eq!(list(&message, &[1], 9, 0).answer, Err(7));
        assert_eq!(list(&message, &[1], 6, 0).answer, Err(8));
        assert_eq!(list(&message, &[0x3C, 0], 6, 0).answer, Err(8));
        assert_eq!(list(&message, &[0x3C], 6, 0).answer, Err(9));
    }

    /// Every way of striking out so many places: "some k of X's places".
    fn comes_by_striking_out(received: &[bool], row: &[bool]) -> bool {
        match row.split_first() {
            None => received.is_empty(),
            Some((bit, rest)) => {
                comes_by_striking_out(received, rest)
                    || received.first() == Some(bit) && comes_by_striking_out(&received[1..], rest)
            }
        }
    }

    #[test]
    fn taking_the_first_place_is_enough() {
        for n in 0..=7 {
            for m in 0..=n {
                for (x, y) in (0..1 << n).flat_map(|x| (0..1 << m).map(move |y| (x, y))) {
                    let (row, received) = (digits(x, n), digits(y, m));
                    assert_eq!(comes_from(&received, &row), comes_by_striking_out(&received, &row));
                }
            }
        }
    }

    #[test]
    fn supersequences_give_the_same_list() {
        let mut random = Random::new(41);
        for layout in Layout::every_legal().into_iter().filter(|layout| layout.row_bits() <= 16) {
            for kind in Kind::ALL {
                let layout = Layout { r: random.below(4), ..layout };
                let sent = row(kind, layout.row_bits(), &mut random);
                let k = random.below(layout.row_bits().min(MOST_LOSSES) + 1);
                let received = lose(Losses::Uniform, &layout, &sent, k, &mut random);
                let question = Question { layout, fields: fields(&layout, &sent), received };
                let found = by_trying_all(&question);
                assert!(found.contains(&sent));
                assert_eq!(by_supersequences(&question), found, "{question:?}");
            }
        }
    }
}
