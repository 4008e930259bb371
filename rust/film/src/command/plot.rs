//! `film plot`: what was sent, what arrived and what was recovered, side by side.

use std::path::{Path, PathBuf};

use container::Received;
use dairyhour::MOST_LOSSES;
use plotters::style::{RGBColor, TextStyle, BLACK, WHITE};
use plotters_backend::{DrawingBackend, DrawingErrorKind};
use plotters_bitmap::BitMapBackend;
use plotters_svg::SVGBackend;

use super::{plural, read_film, read_received};
use crate::args::Plot;
use crate::picture::{bit, Film};
use crate::scale::{Scale, WRONG};
use crate::trouble::{Result, Trouble};
use crate::{files, glyphs, lists};

const PAPER: [u8; 3] = [255, 255, 255];
const COPPER: [u8; 3] = [38, 50, 56];
/// Where bits are missing at the end of a received row.
const SHORT: [u8; 3] = [255, 205, 210];
/// A recovered row that was not listed.
const UNLISTED: [u8; 3] = [255, 236, 179];
const MARK: RGBColor = RGBColor(229, 57, 53);
const FRAME: RGBColor = RGBColor(176, 190, 197);

/// Pixels between the films and around them, and for the two lines of words above them.
const GAP: u32 = 16;
const HEADING: u32 = GAP + 2 * glyphs::LINE;

pub fn run(args: &Plot) -> Result<bool> {
    let films = [&args.sent, &args.received, &args.recovered];
    let inputs: Vec<&Path> = films.into_iter().chain(&args.lists).map(PathBuf::as_path).collect();
    let outputs: Vec<&Path> = args.output.iter().map(PathBuf::as_path).collect();
    files::once(&inputs)?;
    files::apart(&inputs, &outputs)?;
    outputs.iter().try_for_each(|output| format(output).map(|_| ()))?;
    let sent = read_film(&args.sent)?;
    let (received, _) = read_received(&args.received)?;
    let recovered = read_film(&args.recovered)?;
    let listed = args.lists.as_deref().map(|path| read_listed(path, &received)).transpose()?;
    let scene = Scene::new(&sent, &received, &recovered, listed, args.width)?;
    for output in &args.output {
        files::write(output, &drawn(&scene, output)?)?;
    }
    Ok(true)
}

/// Of which rows of the line at least one can have been sent, from the text that `film list --lists` writes.
fn read_listed(path: &Path, received: &Received) -> Result<Vec<bool>> {
    let bytes = files::read(path)?;
    let listed = lists::listed(&String::from_utf8_lossy(&bytes));
    if listed.len() != received.rows.len() {
        let rows = plural(listed.len(), "row");
        let what = format!("these are the lists of {rows}, but {} arrived", received.rows.len());
        return Err(Trouble::with(files::name(path), what));
    }
    Ok(listed)
}

/// The bytes of the picture in the format that the ending of its name asks for.
fn drawn(scene: &Scene, output: &Path) -> Result<Vec<u8>> {
    match format(output)? {
        Format::Svg => svg(scene),
        Format::Png => png(scene),
    }
}

enum Format {
    Png,
    Svg,
}

fn format(output: &Path) -> Result<Format> {
    let ending = output.extension().map_or(String::new(), |ending| ending.to_string_lossy().to_lowercase());
    match (&ending[..], files::is_output(output)) {
        ("svg", _) => Ok(Format::Svg),
        ("png", _) | (_, true) => Ok(Format::Png),
        _ => Err(Trouble::with(output.display(), "a picture has the ending .png or .svg")),
    }
}

fn svg(scene: &Scene) -> Result<Vec<u8>> {
    let mut text = String::new();
    let style = TextStyle::from(("sans-serif", 17));
    scene.draw(&mut SVGBackend::with_string(&mut text, scene.size), |to, words, at| to.draw_text(words, &style, at))?;
    // The backend names the embedded pictures by a type that viewers do not know.
    Ok(text.replace("data:png;base64,", "data:image/png;base64,").into_bytes())
}

fn png(scene: &Scene) -> Result<Vec<u8>> {
    let (width, height) = scene.size;
    let mut pixels = vec![0; width as usize * height as usize * 3];
    scene.draw(&mut BitMapBackend::with_buffer(&mut pixels, (width, height)), |to, words, (x, y)| {
        let placed = |(dx, dy)| (x + dx, y + dy);
        glyphs::dots(words).try_for_each(|[from, end]| to.draw_rect(placed(from), placed(end), &BLACK, true))
    })?;
    let mut bytes = Vec::new();
    let mut encoder = png::Encoder::new(&mut bytes, width, height);
    encoder.set_color(png::ColorType::Rgb);
    let trouble = |error: png::EncodingError| Trouble::with("PNG", error);
    let mut writer = encoder.write_header().map_err(trouble)?;
    writer.write_image_data(&pixels).map_err(trouble)?;
    writer.finish().map_err(trouble)?;
    Ok(bytes)
}

type Drawn<B> = std::result::Result<(), DrawingErrorKind<<B as DrawingBackend>::ErrorType>>;

/// All that is drawn: three films of the same size with two lines of words above each, and the marks in the second film.
struct Scene {
    titles: [[String; 2]; 3],
    films: [Vec<u8>; 3],
    width: u32,
    height: u32,
    /// The pixels that a film has with the words above it, which are wider than a narrow film.
    column: u32,
    /// The width and the height of the picture.
    size: (u32, u32),
    marks: Vec<[(usize, usize); 2]>,
}

impl Scene {
    fn new(sent: &Film, received: &Received, recovered: &Film, listed: Option<Vec<bool>>, most: u32) -> Result<Scene> {
        if (sent.width, sent.height) != (recovered.width, recovered.height) {
            return Err(Trouble::new("the sent and the recovered film have different sizes"));
        }
        let scale = Scale::new(sent.width, sent.height, most as usize);
        scale.picture(scale.width(), GAP as usize, HEADING as usize)?;
        let arrived = Arrived::new(sent, received)?;
        let words = if listed.is_some() { "listed:" } else { "listed: at most" };
        let listed = listed.unwrap_or_else(|| arrived.not_ruled_out(recovered));
        let titles = titles(&arrived, recovered, &listed, words);
        let widest = titles.iter().flatten().map(|line| glyphs::width(line)).max().unwrap_or(0);
        let column = scale.width().max(widest as usize);
        let size = scale.picture(column, GAP as usize, HEADING as usize)?;
        let films = painted(&scale, &arrived, recovered, &listed);
        let marks = arrived.slips().map(|(row, column)| scale.mark(row, column)).collect();
        let (width, height) = (scale.width() as u32, scale.height() as u32);
        Ok(Scene { titles, films, width, height, column: column as u32, size, marks })
    }

    fn draw<B: DrawingBackend>(&self, to: &mut B, words: impl Fn(&mut B, &str, (i32, i32)) -> Drawn<B>) -> Result<()> {
        self.draw_films(to, words)
            .and_then(|()| self.draw_marks(to))
            .and_then(|()| to.present())
            .map_err(|error| Trouble::with("the picture", error))
    }

    fn draw_films<B: DrawingBackend>(
        &self,
        to: &mut B,
        words: impl Fn(&mut B, &str, (i32, i32)) -> Drawn<B>,
    ) -> Drawn<B> {
        let (right, bottom) = self.size;
        to.draw_rect((0, 0), (right as i32, bottom as i32), &WHITE, true)?;
        for (number, (title, pixels)) in self.titles.iter().zip(&self.films).enumerate() {
            let (left, top) = self.corner(number as u32);
            for (line, y) in title.iter().zip((GAP / 2..).step_by(glyphs::LINE as usize)) {
                if !line.is_empty() {
                    words(to, line, (left, y as i32))?;
                }
            }
            to.blit_bitmap((left, top), (self.width, self.height), pixels)?;
            let end = (left + self.width as i32, top + self.height as i32);
            to.draw_rect((left - 1, top - 1), end, &FRAME, false)?;
        }
        Ok(())
    }

    fn draw_marks<B: DrawingBackend>(&self, to: &mut B) -> Drawn<B> {
        let (left, top) = self.corner(1);
        let placed = |(x, y): (usize, usize)| (left + x as i32, top + y as i32);
        self.marks.iter().try_for_each(|[from, end]| to.draw_rect(placed(*from), placed(*end), &MARK, true))
    }

    /// The upper left pixel of a film.
    fn corner(&self, number: u32) -> (i32, i32) {
        ((GAP + number * (self.column + GAP)) as i32, HEADING as i32)
    }
}

fn titles(arrived: &Arrived<'_>, recovered: &Film, listed: &[bool], words: &str) -> [[String; 2]; 3] {
    let sent = arrived.sent;
    let equal = (0..sent.height).filter(|row| sent.row(*row) == recovered.row(*row)).count();
    let whole = listed.chunks(arrived.panels).filter(|panels| panels.iter().all(|listed| *listed)).count();
    [
        [format!("sent: {} of {}", plural(sent.height, "row"), plural(sent.width, "bit")), String::new()],
        [format!("received: {} lost", plural(arrived.lost(), "bit")), String::from("slips in red")],
        [
            format!("recovered: {equal} of {} equal", plural(sent.height, "row")),
            format!("{words} {whole} of {}", plural(sent.height, "row")),
        ],
    ]
}

/// The three films in their colours.
fn painted(scale: &Scale, arrived: &Arrived<'_>, recovered: &Film, listed: &[bool]) -> [Vec<u8>; 3] {
    let sent = arrived.sent;
    let shade = |black| if black { COPPER } else { PAPER };
    let recovered = |row, column| match recovered.bit(row, column) {
        black if black != sent.bit(row, column) => WRONG,
        _ if !listed[arrived.number(row, column)] => UNLISTED,
        black => shade(black),
    };
    [
        scale.paint(|row, column| shade(sent.bit(row, column))),
        scale.paint(|row, column| arrived.bit(row, column).map_or(SHORT, shade)),
        scale.paint(recovered),
    ]
}

/// The received rows as a film: each panel's rows from its left edge.
struct Arrived<'a> {
    sent: &'a Film,
    received: &'a Received,
    panels: usize,
}

impl<'a> Arrived<'a> {
    fn new(sent: &'a Film, received: &'a Received) -> Result<Arrived<'a>> {
        let bits = usize::from(received.row_bits);
        let panels = (sent.width + bits - 1) / bits;
        if panels * sent.height != received.rows.len() {
            let due = plural(panels * sent.height, "row");
            let arrived = received.rows.len();
            return Err(Trouble::new(format!("the film has {due} of {bits} bits, but {arrived} arrived")));
        }
        Ok(Arrived { sent, received, panels })
    }

    /// The row of the line that a bit of the film belongs to.
    fn number(&self, row: usize, column: usize) -> usize {
        row * self.panels + column / usize::from(self.received.row_bits)
    }

    /// The bit that arrived at a place, if one did.
    fn bit(&self, row: usize, column: usize) -> Option<bool> {
        let bits = usize::from(self.received.row_bits);
        let found = &self.received.rows[self.number(row, column)];
        (column % bits < usize::from(found.bits)).then(|| bit(&found.packed, column % bits))
    }

    fn lost(&self) -> usize {
        let bits = self.received.row_bits;
        self.received.rows.iter().map(|row| usize::from(bits.saturating_sub(row.bits))).sum()
    }

    /// Where bits are missing, as places of the received film: matched from the left, a sent bit that is not the next
    /// received one is lost.
    fn slips(&self) -> impl Iterator<Item = (usize, usize)> + '_ {
        (0..self.received.rows.len()).flat_map(move |number| self.matched(self.sent, number).slips)
    }

    /// Which rows of the line may have been listed: a row of a list gives what arrived by losing bits, not too many of them.
    fn not_ruled_out(&self, recovered: &Film) -> Vec<bool> {
        let may_be = |number| self.matched(recovered, number).fits;
        (0..self.received.rows.len()).map(may_be).collect()
    }

    /// Row `number` of the line as it stands in a film, matched from the left with what arrived of it.
    fn matched(&self, film: &Film, number: usize) -> Matched {
        let bits = usize::from(self.received.row_bits);
        let (row, first) = (number / self.panels, number % self.panels * bits);
        let found = &self.received.rows[number];
        let mut taken = 0;
        let mut slips = Vec::new();
        for column in first..first + bits {
            let black = column < film.width && film.bit(row, column);
            if taken < usize::from(found.bits) && bit(&found.packed, taken) == black {
                taken += 1;
            } else {
                slips.push((row, (first + taken).min(film.width - 1)));
            }
        }
        Matched { fits: taken == usize::from(found.bits) && slips.len() <= MOST_LOSSES, slips }
    }
}

struct Matched {
    /// Did all that arrived find its place, with no more losses than a list is made for?
    fits: bool,
    slips: Vec<(usize, usize)>,
}

#[cfg(test)]
mod tests {
    use super::*;
    use container::Row;

    #[test]
    fn slips_stand_at_the_ends_of_runs() {
        let mut sent = Film::blank(8, 1);
        for column in [2, 3, 6] {
            sent.blacken(0, column);
        }
        // 00110010 without its third bit: 0010010.
        let received = Received { row_bits: 8, rows: vec![Row { bits: 7, packed: vec![0x24] }] };
        let arrived = Arrived::new(&sent, &received).unwrap();
        assert_eq!(arrived.slips().collect::<Vec<_>>(), [(0, 3)]);
        assert_eq!(arrived.lost(), 1);
        assert_eq!(arrived.bit(0, 7), None);
    }

    /// What is seen of a row that is not listed: a white row does not give the ones that arrived, and no list is made for
    /// more than 12 losses.
    #[test]
    fn rows_that_cannot_have_been_listed() {
        let film = Film::blank(16, 3);
        let row = |bits, byte| Row { bits, packed: vec![byte] };
        let received = Received { row_bits: 16, rows: vec![row(8, 0x00), row(8, 0x10), row(3, 0x00)] };
        let arrived = Arrived::new(&film, &received).unwrap();
        assert_eq!(arrived.not_ruled_out(&film), [true, false, false]);
    }

    fn scene(width: usize, rows: Vec<Row>) -> Scene {
        let film = Film::blank(width, rows.len());
        Scene::new(&film, &Received { row_bits: width as u16, rows }, &film, None, 680).unwrap()
    }

    /// The words above a film stay above it, however narrow the film is.
    #[test]
    fn titles_do_not_overlap() {
        for width in [1, 8, 60, 378, 2040] {
            let scene = scene(width, vec![Row { bits: 0, packed: vec![] }; 3]);
            let words = scene.titles.iter().flatten().map(|line| glyphs::width(line)).max().unwrap();
            assert!(scene.column >= words && scene.column >= scene.width);
            assert_eq!(scene.size.0, 3 * scene.column + 4 * GAP);
            assert_eq!(scene.corner(1).0 - scene.corner(0).0, (scene.column + GAP) as i32);
        }
    }

    /// Every pixel of a picture is drawn: its edges are white, and each letter of its words is there.
    #[test]
    fn a_picture_is_drawn_to_its_edges() {
        let scene = scene(8, vec![Row { bits: 8, packed: vec![0] }]);
        let bytes = png(&scene).unwrap();
        let mut reader = png::Decoder::new(&bytes[..]).read_info().unwrap();
        let mut pixels = vec![0; reader.output_buffer_size()];
        reader.next_frame(&mut pixels).unwrap();
        let (width, height) = (scene.size.0 as usize, scene.size.1 as usize);
        let black =
            |row: usize| pixels[3 * row * width..][..3 * width].chunks(3).filter(|pixel| *pixel == [0; 3]).count();
        assert_eq!((black(0), black(height - 1)), (0, 0));
        let dots: usize = scene.titles.iter().flatten().map(|line| glyphs::dots(line).count()).sum();
        assert_eq!((0..HEADING as usize).map(black).sum::<usize>(), 4 * dots);
    }
}
