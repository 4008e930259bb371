//! Panels as a picture.

use std::fmt::Display;
use std::ops::Range;

use bench::text::microseconds;
use plotters::coord::Shift;
use plotters::prelude::*;

use crate::curves::{Curve, Panel, Point, LIMIT};

type Area<'a> = DrawingArea<SVGBackend<'a>, Shift>;

/// Panels in a row of the picture, and the size of one.
const ACROSS: usize = 4;
const PANEL: (u32, u32) = (370, 280);
const HEADING: u32 = 34;

/// The times that fit a panel, in microseconds.
const TIMES: Range<f64> = 0.1..1e7;
const MOST_LOSSES: f64 = dairyhour::MOST_LOSSES as f64;

const COLOURS: [RGBColor; 9] = [
    RGBColor(120, 144, 156),
    RGBColor(251, 140, 0),
    RGBColor(141, 110, 99),
    RGBColor(21, 101, 192),
    RGBColor(3, 169, 244),
    RGBColor(142, 36, 170),
    RGBColor(46, 125, 50),
    RGBColor(216, 27, 96),
    RGBColor(189, 189, 189),
];
const GRID: RGBColor = RGBColor(224, 224, 224);
const MARK: RGBColor = RGBColor(229, 57, 53);

fn colour(number: usize) -> RGBColor {
    COLOURS[number % COLOURS.len()]
}

fn trouble(error: impl Display) -> String {
    error.to_string()
}

/// The picture: a panel for each kind of rows, and the names of the curves in the place behind them.
pub fn svg(heading: &str, panels: &[Panel]) -> Result<String, String> {
    let down = panels.len() / ACROSS + 1;
    let size = (PANEL.0 * ACROSS as u32, PANEL.1 * down as u32 + HEADING);
    let mut text = String::new();
    {
        let area = SVGBackend::with_string(&mut text, size).into_drawing_area();
        area.fill(&WHITE).map_err(trouble)?;
        let (head, body) = area.split_vertically(HEADING);
        head.draw(&Text::new(String::from(heading), (12, 10), ("sans-serif", 18).into_font())).map_err(trouble)?;
        let places = body.split_evenly((down, ACROSS));
        for (panel, place) in panels.iter().zip(&places) {
            draw_panel(panel, place)?;
        }
        if let (Some(panel), Some(place)) = (panels.first(), places.get(panels.len())) {
            draw_names(&panel.curves, place)?;
        }
        area.present().map_err(trouble)?;
    }
    Ok(text)
}

fn draw_panel(panel: &Panel, place: &Area) -> Result<(), String> {
    let mut chart = ChartBuilder::on(place)
        .caption(&panel.rows, ("sans-serif", 15))
        .margin(8)
        .x_label_area_size(22)
        .y_label_area_size(52)
        .build_cartesian_2d(0.0..MOST_LOSSES, TIMES.log_scale())
        .map_err(trouble)?;
    chart
        .configure_mesh()
        .bold_line_style(GRID)
        .max_light_lines(0)
        .x_labels(7)
        .y_labels(8)
        .x_label_formatter(&|k| format!("{k:.0}"))
        .y_label_formatter(&|time| tick(*time))
        .label_style(("sans-serif", 11))
        .draw()
        .map_err(trouble)?;
    let limit = PathElement::new(vec![(0.0, LIMIT), (MOST_LOSSES, LIMIT)], MARK);
    chart.draw_series([limit]).map_err(trouble)?;
    for (number, curve) in panel.curves.iter().enumerate() {
        let style = colour(number).stroke_width(2);
        let place = |point: &Point| (point.k as f64, point.time);
        chart
            .draw_series([PathElement::new(curve.points.iter().map(place).collect::<Vec<_>>(), style)])
            .map_err(trouble)?;
        let (over, within): (Vec<Point>, Vec<Point>) = curve.points.iter().copied().partition(|point| point.is_over);
        let dots = within.iter().map(|point| Circle::new(place(point), 2, colour(number).filled()));
        chart.draw_series(dots).map_err(trouble)?;
        let crosses = over.iter().map(|point| Cross::new(place(point), 4, colour(number).stroke_width(2)));
        chart.draw_series(crosses).map_err(trouble)?;
    }
    Ok(())
}

/// A time of the axis, without the digits behind the point.
fn tick(time: f64) -> String {
    microseconds(time).replace(".00", "").replace(".0", "").replace("0.10", "0.1")
}

fn draw_names(curves: &[Curve], place: &Area) -> Result<(), String> {
    let mut top = 24;
    let mut line = |words: &str, colour: RGBColor| {
        let stroke = PathElement::new(vec![(24, top + 7), (52, top + 7)], colour.stroke_width(3));
        place.draw(&stroke).map_err(trouble)?;
        place.draw(&Text::new(String::from(words), (62, top), ("sans-serif", 14).into_font())).map_err(trouble)?;
        top += 22;
        Ok::<(), String>(())
    };
    for (number, curve) in curves.iter().enumerate() {
        line(&curve.name, colour(number))?;
    }
    line("limit of 5 s (crosses: over it; the steps: over 1 s)", MARK)
}

#[cfg(test)]
mod tests {
    use super::*;

    #[test]
    fn ticks_are_short() {
        assert_eq!(
            [0.1, 1.0, 10.0, 100.0, 1e3, 1e4, 1e6].map(tick),
            ["0.1 µs", "1 µs", "10 µs", "100 µs", "1 ms", "10 ms", "1 s"]
        );
    }

    #[test]
    fn a_picture_has_the_names() {
        let points = vec![Point { k: 0, time: 3.0, is_over: false }, Point { k: 12, time: LIMIT, is_over: true }];
        let curves = vec![Curve { name: "15 17 8 16".into(), points }];
        let svg = svg("p50", &[Panel { rows: "blank".into(), curves }]).unwrap();
        assert!(svg.starts_with("<svg") && svg.contains("blank") && svg.contains("15 17 8 16"), "{svg}");
    }
}
