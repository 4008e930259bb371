//! What is drawn: for each kind of rows the times of each layout against the number of lost bits.

use bench::results::{Cell, Time};

/// A time that passed the limit stands here.
pub const LIMIT: f64 = 5e6;

/// Which time of a cell is drawn.
#[derive(Clone, Copy, Debug, PartialEq, Eq)]
pub enum Figure {
    P50,
    Worst,
}

impl Figure {
    pub fn file(self) -> &'static str {
        match self {
            Figure::P50 => "p50.svg",
            Figure::Worst => "worst.svg",
        }
    }

    pub fn words(self) -> &'static str {
        match self {
            Figure::P50 => "p50 of listing against k, the greatest over all kinds of losses",
            Figure::Worst => "worst of listing against k, over all kinds of losses",
        }
    }

    fn of(self, cell: &Cell) -> Time {
        match self {
            Figure::P50 => cell.p50,
            Figure::Worst => cell.worst,
        }
    }
}

/// A point of a curve.
#[derive(Clone, Copy, Debug, PartialEq)]
pub struct Point {
    pub k: usize,
    pub time: f64,
    /// Did it pass the limit?
    pub is_over: bool,
}

/// The times of a layout.
#[derive(Clone, Debug, PartialEq)]
pub struct Curve {
    pub name: String,
    pub points: Vec<Point>,
}

/// A kind of rows.
#[derive(Clone, Debug, PartialEq)]
pub struct Panel {
    pub rows: String,
    pub curves: Vec<Curve>,
}

/// The layout whose lists by the source's steps are drawn as well, beside the p50 of the library.
const STEPS_OF: &str = "15 17 8 16";

pub fn panels(cells: &[Cell], figure: Figure) -> Vec<Panel> {
    let layouts = distinct(cells.iter().map(|cell| &cell.key.layout));
    let kinds = distinct(cells.iter().map(|cell| &cell.key.rows));
    let panel = |rows: &String| {
        let library = |layout: &String| curve(layout.clone(), of(cells, layout, rows), |cell| figure.of(cell));
        let mut curves: Vec<Curve> = layouts.iter().map(library).collect();
        if figure == Figure::P50 {
            curves.push(curve(format!("the steps, {STEPS_OF}"), of(cells, STEPS_OF, rows), |cell| cell.steps_p50));
        }
        Panel { rows: rows.clone(), curves }
    };
    kinds.iter().map(panel).collect()
}

/// The cells of a layout and a kind of rows.
fn of<'a>(cells: &'a [Cell], layout: &'a str, rows: &'a str) -> impl Iterator<Item = &'a Cell> {
    cells.iter().filter(move |cell| cell.key.layout == layout && cell.key.rows == rows)
}

fn distinct<'a>(names: impl Iterator<Item = &'a String>) -> Vec<String> {
    let mut distinct: Vec<String> = Vec::new();
    for name in names {
        if !distinct.contains(name) {
            distinct.push(name.clone());
        }
    }
    distinct
}

/// The greatest of the times at each number of losses.
fn curve<'a>(name: String, cells: impl Iterator<Item = &'a Cell>, time: impl Fn(&Cell) -> Time) -> Curve {
    let mut points: Vec<Point> = Vec::new();
    for cell in cells {
        if let Some(point) = point(cell.key.k, time(cell)) {
            match points.iter_mut().find(|held| held.k == point.k) {
                Some(held) if held.time < point.time || point.is_over => *held = point,
                Some(_) => {}
                None => points.push(point),
            }
        }
    }
    points.sort_by_key(|point| point.k);
    Curve { name, points }
}

fn point(k: usize, time: Time) -> Option<Point> {
    match time {
        Time::Took(time) => Some(Point { k, time, is_over: false }),
        Time::Over => Some(Point { k, time: LIMIT, is_over: true }),
        Time::Unknown => None,
    }
}

#[cfg(test)]
mod tests {
    use super::*;
    use bench::results::Key;

    fn cell(losses: &str, k: usize, worst: Time) -> Cell {
        let key = Key { layout: STEPS_OF.into(), rows: "film".into(), losses: losses.into(), k };
        Cell { worst, ..Cell::empty(key) }
    }

    #[test]
    fn the_greatest_time_is_drawn() {
        let cells = [
            cell("burst", 4, Time::Over),
            cell("uniform", 1, Time::Took(3.0)),
            cell("uniform", 4, Time::Took(2.0)),
            cell("burst", 1, Time::Took(4.0)),
            cell("burst", 8, Time::Unknown),
        ];
        let panels = panels(&cells, Figure::Worst);
        let point = |k, time, is_over| Point { k, time, is_over };
        let points = vec![point(1, 4.0, false), point(4, LIMIT, true)];
        let curves = vec![Curve { name: STEPS_OF.into(), points }];
        assert_eq!(panels, [Panel { rows: "film".into(), curves }]);
    }
}
