//! Listing by steps 1 to 6 of source document 002, in plain Rust and with no proof: what tests compare the library with
//! under large layouts, and the benchmark times beside it. The steps are corrected where their list would not be
//! complete:
//!
//! - near the end of the received row fewer bits than a block or a chunk has are left; the sum of what is left then
//!   says nothing (steps 1 and 3);
//! - chunks are read from the received row itself, not from the row with mended blocks (step 3);
//! - a mended string is compared with its pieces, whichever place the mended bit took (step 4);
//! - where more chunks are erased than there are checks, each content of one of them is tried, and mending goes on
//!   from there (step 5);
//! - the last block takes all the losses that are left (step 1).

use std::collections::BTreeSet;

use crate::bits::{bytes_for, number, pack, push_number};
use crate::field::Logs;
use crate::layout::Layout;
use crate::limits::LONGEST_LIST;
use crate::list::{comes_from, question, Question};
use crate::mend::insert;
use crate::message::{self, encode};
use crate::refusal;
use crate::sum::sum;

/// Writes the message of a row to the start of a target, and answers its length or the number of the refusal.
pub type Writer = fn(&Layout, &[u8], &mut [u8]) -> Result<usize, u32>;

/// Lists as the library does, into a list slice. With `write` a row is tested at the last step; the benchmark lends a
/// writer that is fast.
pub fn list(write: Writer, message: &[u8], row: &[u8], m: usize, out: &mut [u8]) -> Result<usize, u32> {
    let question = question(message, row, m)?;
    let row_bytes = bytes_for(question.layout.row_bits());
    let mut steps = Steps::new(write, &question, out.len().min(LONGEST_LIST) / row_bytes);
    steps.blocks(0, 0, question.losses());
    for (target, chunks) in out.chunks_exact_mut(row_bytes).zip(&steps.found) {
        target.copy_from_slice(&pack(&bits_of(question.layout.nc, chunks)));
    }
    if steps.more {
        return Err(refusal::LIST_FULL);
    }
    Ok(steps.found.len())
}

/// The whole list.
pub fn by_steps(question: &Question) -> Vec<Vec<bool>> {
    let mut steps = Steps::new(write_plainly, question, usize::MAX);
    steps.blocks(0, 0, question.losses());
    steps.found.iter().map(|chunks| bits_of(question.layout.nc, chunks)).collect()
}

/// The writer of the document.
fn write_plainly(layout: &Layout, row: &[u8], out: &mut [u8]) -> Result<usize, u32> {
    let message = message::write(layout, row, out.len())?;
    out[..message.len()].copy_from_slice(&message);
    Ok(message.len())
}

fn bits_of(nc: usize, chunks: &[u8]) -> Vec<bool> {
    let mut bits = Vec::with_capacity(nc * chunks.len());
    for chunk in chunks {
        push_number(&mut bits, usize::from(*chunk), nc);
    }
    bits
}

/// A block with two losses or more: where the rest of it starts in the received row, and how many of its losses are
/// not yet shared out among its chunks.
#[derive(Clone, Copy)]
struct Heavy {
    block: usize,
    place: usize,
    losses: usize,
}

/// A chunk that is short: where it stands, its losses, and what is left of it, as a number.
#[derive(Clone, Copy)]
struct Cell {
    block: usize,
    column: usize,
    losses: usize,
    piece: u8,
}

/// A row in chunks, of which those in `cells` are short.
#[derive(Clone)]
struct Table {
    chunks: Vec<u8>,
    cells: Vec<Cell>,
}

/// A block or a chunk-string.
#[derive(Clone, Copy)]
enum Line {
    Block(usize),
    Column(usize),
}

/// The choices in hand, and the rows found so far: the first ones, and whether there are more.
struct Steps<'a> {
    write: Writer,
    question: &'a Question,
    message: Vec<u8>,
    logs: &'static Logs,
    most: usize,
    heavy: Vec<Heavy>,
    table: Table,
    found: BTreeSet<Vec<u8>>,
    more: bool,
}

impl<'a> Steps<'a> {
    fn new(write: Writer, question: &'a Question, most: usize) -> Steps<'a> {
        let layout = &question.layout;
        Steps {
            write,
            question,
            message: encode(layout, &question.fields),
            logs: Logs::of(layout.nc),
            most,
            heavy: Vec::new(),
            table: Table { chunks: vec![0; layout.chunks()], cells: Vec::new() },
            found: BTreeSet::new(),
            more: false,
        }
    }

    fn layout(&self) -> Layout {
        self.question.layout
    }

    /// Steps 1 and 2: the losses of block `i`, whose bits start at `place`, and of those behind it. A block without
    /// loss is read, and one with a single loss is mended.
    fn blocks(&mut self, i: usize, place: usize, left: usize) {
        if i == self.layout().l1 {
            self.columns(0);
            return;
        }
        let received = &self.question.received;
        for losses in self.block_choices(i, place, left) {
            let end = place + self.layout().block_bits() - losses;
            match losses {
                0 => self.put_block(i, &received[place..end]),
                1 => self.put_block(i, &insert(self.due(Line::Block(i)), &received[place..end])),
                _ => self.heavy.push(Heavy { block: i, place, losses }),
            }
            self.blocks(i + 1, end, left - losses);
            if losses > 1 {
                self.heavy.pop();
            }
        }
    }

    /// "If the next nb bits have the block's sum .. only zero and two or more are tried", else one or more.
    fn block_choices(&self, i: usize, place: usize, left: usize) -> Vec<usize> {
        let nb = self.layout().block_bits();
        let rest = &self.question.received[place..];
        let matches = rest.len() >= nb && sum(&rest[..nb]) == self.due(Line::Block(i));
        let is_last = i + 1 == self.layout().l1;
        let may = |losses: usize| match losses {
            0 => matches,
            1 => !matches,
            _ => true,
        };
        let fits = |losses: usize| losses <= nb && nb - losses <= rest.len() && (!is_last || losses == left);
        (0..=left).filter(|losses| may(*losses) && fits(*losses)).collect()
    }

    fn put_block(&mut self, i: usize, bits: &[bool]) {
        let Layout { l2, nc, .. } = self.layout();
        for (chunk, part) in self.table.chunks[i * l2..].iter_mut().zip(bits.chunks(nc)) {
            *chunk = number(part) as u8;
        }
    }

    /// Step 3: the losses of the heavy blocks in column `j` and in those behind it.
    fn columns(&mut self, j: usize) {
        if j == self.layout().l2 {
            self.turns(self.table.clone());
        } else {
            self.share(j, 0, 0, self.matches_as_read(j));
        }
    }

    /// Whether the column has its sum where each chunk is read from the received row; nothing where a chunk would
    /// run past the row's end.
    fn matches_as_read(&self, j: usize) -> Option<bool> {
        let Layout { l1, l2, nc, .. } = self.layout();
        let mut chunks: Vec<u8> = (0..l1).map(|i| self.table.chunks[i * l2 + j]).collect();
        for heavy in &self.heavy {
            chunks[heavy.block] = number(self.question.received.get(heavy.place..heavy.place + nc)?) as u8;
        }
        Some(sum(&bits_of(nc, &chunks)) == self.due(Line::Column(j)))
    }

    /// The losses of the heavy blocks from the one at `at` on in column `j`, where those before it have `total`.
    fn share(&mut self, j: usize, at: usize, total: usize, matches: Option<bool>) {
        let Layout { l2, nc, .. } = self.layout();
        if at == self.heavy.len() {
            if matches!((matches, total), (None, _) | (Some(true), 0) | (Some(false), 1) | (_, 2..)) {
                self.columns(j + 1);
            }
            return;
        }
        let heavy = self.heavy[at];
        let Heavy { block, place, losses } = heavy;
        let least = losses.saturating_sub((l2 - 1 - j) * nc);
        for own in (least..=losses.min(nc)).filter(|own| place + nc - own <= self.question.received.len()) {
            let end = place + nc - own;
            let piece = number(&self.question.received[place..end]) as u8;
            self.heavy[at] = Heavy { block, place: end, losses: losses - own };
            if own == 0 {
                self.table.chunks[block * l2 + j] = piece;
                self.share(j, at + 1, total, matches);
            } else {
                self.table.cells.push(Cell { block, column: j, losses: own, piece });
                self.share(j, at + 1, total + own, matches);
                self.table.cells.pop();
            }
        }
        self.heavy[at] = heavy;
    }

    /// Step 4: columns and blocks with a single loss are mended by turns, until there is none.
    fn turns(&mut self, mut table: Table) {
        loop {
            let before = table.cells.len();
            for line in [|cell: &Cell| Line::Column(cell.column), |cell: &Cell| Line::Block(cell.block)] {
                while let Some(at) = single(&table.cells, line) {
                    let cell = table.cells.swap_remove(at);
                    if !self.mend(&mut table.chunks, cell, line(&cell)) {
                        return;
                    }
                }
            }
            if table.cells.len() == before {
                break;
            }
        }
        self.fill(table);
    }

    /// Mends a line of which one chunk lacks one bit. The mended string must have the other chunks as they are.
    fn mend(&self, chunks: &mut [u8], cell: Cell, line: Line) -> bool {
        let Layout { l2, nc, .. } = self.layout();
        let own = cell.block * l2 + cell.column;
        let places = self.places(line);
        let mut bits = Vec::new();
        for place in &places {
            let (value, width) = if *place == own { (cell.piece, nc - 1) } else { (chunks[*place], nc) };
            push_number(&mut bits, usize::from(value), width);
        }
        let mended = insert(self.due(line), &bits);
        places.iter().zip(mended.chunks(nc)).all(|(place, part)| {
            let value = number(part) as u8;
            let agrees = *place == own || chunks[*place] == value;
            chunks[*place] = value;
            agrees
        })
    }

    /// The chunks of a line, in order.
    fn places(&self, line: Line) -> Vec<usize> {
        let Layout { l1, l2, .. } = self.layout();
        match line {
            Line::Block(i) => (i * l2..(i + 1) * l2).collect(),
            Line::Column(j) => (0..l1).map(|i| i * l2 + j).collect(),
        }
    }

    /// The sum that a line must have.
    fn due(&self, line: Line) -> usize {
        let place = match line {
            Line::Block(i) => i,
            Line::Column(j) => self.layout().l1 + j,
        };
        usize::from(self.question.fields[place])
    }

    /// Step 5: chunks that are still short are erased and filled from the checks, as far as there are checks.
    fn fill(&mut self, mut table: Table) {
        if table.cells.len() <= self.layout().r {
            self.solve(table);
        } else if let Some(cell) = table.cells.pop() {
            for value in 0..=u8::MAX >> (8 - self.layout().nc) {
                if self.has_piece(value, cell) {
                    table.chunks[cell.block * self.layout().l2 + cell.column] = value;
                    if self.meets_sums(&table, cell) {
                        self.turns(table.clone());
                    }
                }
            }
        }
    }

    /// Where the block or the column of a chunk that was found has no short chunk left, it must have its sum.
    fn meets_sums(&self, table: &Table, found: Cell) -> bool {
        let has_sum = |line: Line| {
            let chunks: Vec<u8> = self.places(line).into_iter().map(|place| table.chunks[place]).collect();
            sum(&bits_of(self.layout().nc, &chunks)) == self.due(line)
        };
        (table.cells.iter().any(|cell| cell.block == found.block) || has_sum(Line::Block(found.block)))
            && (table.cells.iter().any(|cell| cell.column == found.column) || has_sum(Line::Column(found.column)))
    }

    /// Can what is left of the chunk come from this content?
    fn has_piece(&self, value: u8, cell: Cell) -> bool {
        let nc = self.layout().nc;
        let (mut piece, mut content) = (Vec::new(), Vec::new());
        push_number(&mut piece, usize::from(cell.piece), nc - cell.losses);
        push_number(&mut content, usize::from(value), nc);
        comes_from(&piece, &content)
    }

    /// Finds the contents of the erased chunks from as many checks, by elimination.
    fn solve(&mut self, mut table: Table) {
        let l2 = self.layout().l2;
        let erased: Vec<usize> = table.cells.iter().map(|cell| cell.block * l2 + cell.column).collect();
        erased.iter().for_each(|place| table.chunks[*place] = 0);
        let mut equations: Vec<Vec<u8>> = (0..erased.len())
            .map(|i| {
                let mut equation: Vec<u8> = erased.iter().map(|place| self.term(i, *place, 1)).collect();
                equation.push(self.missing(i, &table.chunks));
                equation
            })
            .collect();
        for at in 0..erased.len() {
            self.eliminate(&mut equations, at);
        }
        for (place, equation) in erased.iter().zip(&equations) {
            table.chunks[*place] = equation[erased.len()];
        }
        if table.cells.iter().all(|cell| self.has_piece(table.chunks[cell.block * l2 + cell.column], *cell)) {
            self.keep(table.chunks);
        }
    }

    /// 2^(i × c) times a chunk.
    fn term(&self, i: usize, c: usize, chunk: u8) -> u8 {
        if chunk == 0 {
            return 0;
        }
        let order = (1 << self.layout().nc) - 1;
        self.logs.power[(usize::from(self.logs.exponent[usize::from(chunk)]) + i * c) % order]
    }

    /// What the erased chunks have to bring to check `i`.
    fn missing(&self, i: usize, chunks: &[u8]) -> u8 {
        let check = self.question.fields[self.layout().l1 + self.layout().l2 + i] as u8;
        chunks.iter().enumerate().fold(check, |total, (c, chunk)| total ^ self.term(i, c, *chunk))
    }

    /// Leaves unknown `at` in equation `at` only, with the factor 1. The unknowns have different powers of 2, so
    /// some equation has it with another factor than 0.
    fn eliminate(&self, equations: &mut [Vec<u8>], at: usize) {
        if let Some(pivot) = (at..equations.len()).find(|row| equations[*row][at] != 0) {
            equations.swap(at, pivot);
        }
        let order = (1 << self.layout().nc) - 1;
        let inverse = order - usize::from(self.logs.exponent[usize::from(equations[at][at])]);
        let scaled: Vec<u8> = equations[at].iter().map(|value| self.term(1, inverse, *value)).collect();
        for (row, equation) in equations.iter_mut().enumerate() {
            let factor = equation[at];
            if row == at {
                equation.clone_from(&scaled);
            } else if factor != 0 {
                let exponent = usize::from(self.logs.exponent[usize::from(factor)]);
                for (value, own) in equation.iter_mut().zip(&scaled) {
                    *value ^= self.term(1, exponent, *own);
                }
            }
        }
    }

    /// Step 6: a row that is consistent is kept, once.
    fn keep(&mut self, chunks: Vec<u8>) {
        let row = bits_of(self.layout().nc, &chunks);
        let mut message = vec![0; self.message.len()];
        let is_own = (self.write)(&self.layout(), &pack(&row), &mut message).is_ok() && message == self.message;
        if !is_own || !comes_from(&self.question.received, &row) {
            return;
        }
        self.found.insert(chunks);
        if self.found.len() > self.most {
            self.more = true;
            if let Some(last) = self.found.iter().next_back().cloned() {
                self.found.remove(&last);
            }
        }
    }
}

/// A cell that lacks one bit and is alone in its line.
fn single(cells: &[Cell], line: fn(&Cell) -> Line) -> Option<usize> {
    let same = |a: &Cell, b: &Cell| match (line(a), line(b)) {
        (Line::Block(i), Line::Block(other)) | (Line::Column(i), Line::Column(other)) => i == other,
        _ => false,
    };
    cells.iter().position(|cell| cell.losses == 1 && cells.iter().filter(|other| same(cell, other)).count() == 1)
}

#[cfg(test)]
mod tests {
    use super::*;
    use crate::limits::MOST_LOSSES;
    use crate::list::{by_supersequences, by_trying_all, judge};
    use crate::message::fields;
    use crate::random::Random;
    use crate::samples::{lose, row, Kind, Losses};

    fn sample(layout: Layout, most_losses: usize, random: &mut Random) -> Question {
        let kind = Kind::ALL[random.below(Kind::ALL.len())];
        let sent = row(kind, layout.row_bits(), random);
        let k = random.below(layout.row_bits().min(most_losses) + 1);
        let received = lose(Losses::ALL[random.below(5)], &layout, &sent, k, random);
        let mut fields = fields(&layout, &sent);
        if random.below(3) == 0 {
            fields[layout.l1] = random.below(layout.string_bits() + 1) as u16;
        }
        Question { layout, fields, received }
    }

    #[test]
    fn lists_as_trying_all_rows_does() {
        let mut random = Random::new(81);
        let small = |layout: &Layout| layout.row_bits() <= 16;
        for layout in Layout::every_legal().into_iter().filter(small) {
            for _ in 0..if layout.row_bits() <= 12 { 100 } else { 10 } {
                let question = sample(Layout { r: random.below(4), ..layout }, MOST_LOSSES, &mut random);
                assert_eq!(by_steps(&question), by_trying_all(&question), "{question:?}");
            }
        }
    }

    #[test]
    fn lists_longer_rows() {
        let mut random = Random::new(82);
        for _ in 0..60 {
            let question = sample(Layout::new(5, 3, 4, 4), 4, &mut random);
            assert_eq!(by_steps(&question), by_supersequences(&question), "{question:?}");
        }
    }

    #[test]
    fn fills_a_slice_as_the_plain_part_does() {
        let mut random = Random::new(83);
        for _ in 0..500 {
            let question = sample(Layout::new(2, 2, 3, random.below(2)), MOST_LOSSES, &mut random);
            let message = encode(&question.layout, &question.fields);
            let (row, m) = (pack(&question.received), question.received.len());
            let judged = judge(&message, &row, m);
            for room in [0, 1, 2, 5, 100] {
                let expected = judged.listed(room);
                let mut out = vec![0xA5; room];
                assert_eq!(list(write_plainly, &message, &row, m, &mut out), expected.answer, "{question:?}");
                let mut due = expected.written;
                due.resize(room, 0xA5);
                assert_eq!(out, due, "{question:?}");
            }
        }
    }
}
