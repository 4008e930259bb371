//! What is listed: rows and losses by name, the layouts, and the cases of a cell.

use bench::results::{Key, SMALL};
use dairyhour::{MOST_CHECKS, MOST_LOSSES};
use reference::bits::pack;
use reference::message::{encode, fields};
use reference::random::Random;
use reference::samples::{lose, row, Kind, Losses};
use reference::Layout;

use crate::films::film_rows;
use crate::worker::Task;

/// Where rows come from.
#[derive(Clone, Copy, Debug, PartialEq, Eq)]
pub enum Rows {
    Made(Kind),
    Film,
    /// Rows of films, each with the message of a neighbouring row: a mix-up, with mostly no row that is consistent.
    Neighbour,
}

pub const ROWS: [(&str, Rows); 13] = [
    ("random", Rows::Made(Kind::Random)),
    ("blank", Rows::Made(Kind::Blank)),
    ("ones", Rows::Made(Kind::Ones)),
    ("stripes2", Rows::Made(Kind::Stripes(2))),
    ("stripes3", Rows::Made(Kind::Stripes(3))),
    ("stripes4", Rows::Made(Kind::Stripes(4))),
    ("stripes7", Rows::Made(Kind::Stripes(7))),
    ("stripes8", Rows::Made(Kind::Stripes(8))),
    ("track", Rows::Made(Kind::Tracks(1))),
    ("tracks4", Rows::Made(Kind::Tracks(4))),
    ("synthetic", Rows::Made(Kind::Film)),
    ("film", Rows::Film),
    ("neighbour", Rows::Neighbour),
];

pub const LOSSES: [(&str, Losses); 4] =
    [("uniform", Losses::Uniform), ("burst", Losses::Burst), ("runends", Losses::RunEnds), ("block", Losses::Block)];

/// The name of losses of which each trial draws its own.
const ANY: &str = "any";

const LAYOUTS: [[usize; 4]; 7] =
    [[5, 3, 4, 4], [9, 7, 6, 7], [10, 6, 6, 4], [15, 17, 8, 16], [15, 17, 8, 4], [15, 17, 8, 0], [17, 15, 8, 8]];

/// The layouts of a cell.
#[derive(Clone, Copy, Debug, PartialEq, Eq)]
pub enum Place {
    One(Layout),
    /// Any layout of rows of at most 60 bits; the losses are of any kind as well.
    Small,
}

impl Place {
    pub fn all() -> Vec<Place> {
        let named = LAYOUTS.iter().map(|[l1, l2, nc, r]| Place::One(Layout::new(*l1, *l2, *nc, *r)));
        named.chain([Place::Small]).collect()
    }

    /// The numbers of losses that are timed.
    pub fn losses(self) -> Vec<usize> {
        match self {
            // The source's fifth setup has 7.
            Place::One(layout) if layout == Layout::new(9, 7, 6, 7) => vec![0, 1, 2, 4, 7, 8, MOST_LOSSES],
            Place::One(_) => vec![0, 1, 2, 4, 8, MOST_LOSSES],
            Place::Small => vec![1, 2, 4, 6, 8, 10, MOST_LOSSES],
        }
    }

    /// The most losses that a row can have.
    pub fn most_losses(self) -> usize {
        match self {
            Place::One(layout) => layout.row_bits(),
            Place::Small => SMALL_BITS,
        }
    }

    pub fn name(self) -> String {
        match self {
            Place::One(layout) => layout_name(&layout),
            Place::Small => String::from(SMALL),
        }
    }
}

pub fn layout_name(layout: &Layout) -> String {
    let Layout { l1, l2, nc, r } = layout;
    format!("{l1} {l2} {nc} {r}")
}

/// Lists of one kind.
#[derive(Clone, Copy, Debug)]
pub struct Kinds {
    pub place: Place,
    pub rows: (&'static str, Rows),
    pub losses: (&'static str, Losses),
    pub k: usize,
}

impl Kinds {
    pub fn key(&self) -> Key {
        let losses = if self.place == Place::Small { ANY } else { self.losses.0 };
        Key { layout: self.place.name(), rows: self.rows.0.into(), losses: losses.into(), k: self.k }
    }

    /// Do the losses make no difference? Then only the first kind of them is timed.
    pub fn is_one_of_losses(&self) -> bool {
        let is_plain = matches!(self.rows.1, Rows::Made(Kind::Blank | Kind::Ones));
        self.k == 0 || is_plain || self.place == Place::Small
    }

    /// The case of a trial: the same at every run.
    pub fn case(&self, trial: usize) -> Case {
        let mut random = Random::new(trial as u64 * 7919 + 13);
        let (layout, losses) = match self.place {
            Place::One(layout) => (layout, self.losses),
            Place::Small => (small_layout(self.k, &mut random), LOSSES[random.below(LOSSES.len())]),
        };
        let n = layout.row_bits();
        let (sent, described) = match self.rows.1 {
            Rows::Made(kind) => same(row(kind, n, &mut random)),
            Rows::Film => same(film_rows(n, &mut random).0),
            Rows::Neighbour => film_rows(n, &mut random),
        };
        let received = lose(losses.1, &layout, &sent, self.k, &mut random);
        let message = encode(&layout, &fields(&layout, &described));
        let name = match self.place {
            Place::One(_) => format!("trial {trial}"),
            Place::Small => format!("{}, {}, trial {trial}", layout_name(&layout), losses.0),
        };
        Case { name, whole: task(&message, &sent), short: task(&message, &received) }
    }
}

/// A row, and the row whose message goes with it.
fn same(row: Vec<bool>) -> (Vec<bool>, Vec<bool>) {
    (row.clone(), row)
}

fn task(message: &[u8], bits: &[bool]) -> Task {
    Task { message: message.to_vec(), row: pack(bits), m: bits.len() }
}

/// A row as it was sent, and what was received of it.
pub struct Case {
    pub name: String,
    pub whole: Task,
    pub short: Task,
}

const SMALL_BITS: usize = 60;

/// A layout of rows of at least `k` and at most 60 bits. Few checks, with which lists are long, come as often as many.
fn small_layout(k: usize, random: &mut Random) -> Layout {
    let mut layouts = Layout::every_legal();
    layouts.retain(|layout| (k..=SMALL_BITS).contains(&layout.row_bits()));
    let most = if random.below(2) == 0 { 4 } else { MOST_CHECKS };
    Layout { r: random.below(most + 1), ..layouts[random.below(layouts.len())] }
}
