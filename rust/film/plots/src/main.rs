//! Draws what `bench list` stored: `bench-plots FOLDER` writes `p50.svg` and `worst.svg` beside `lists.tsv`, each with
//! a panel for each kind of rows, time against the number of lost bits.
#![forbid(unsafe_code)]

mod curves;
mod picture;

use std::path::Path;
use std::process::ExitCode;
use std::{env, fs};

use bench::results::{read, Cell};

fn main() -> ExitCode {
    let words: Vec<String> = env::args().skip(1).collect();
    let result = match &words[..] {
        [folder] => draw(Path::new(folder)),
        _ => Err(String::from("usage: bench-plots FOLDER")),
    };
    match result {
        Ok(()) => ExitCode::SUCCESS,
        Err(text) => {
            eprintln!("bench-plots: {text}");
            ExitCode::from(2)
        }
    }
}

fn draw(folder: &Path) -> Result<(), String> {
    let cells: Vec<Cell> = read(folder).map_err(|error| error.to_string())?;
    if cells.is_empty() {
        return Err(format!("{} has no lists.tsv with cells", folder.display()));
    }
    for figure in [curves::Figure::P50, curves::Figure::Worst] {
        let path = folder.join(figure.file());
        let svg = picture::svg(figure.words(), &curves::panels(&cells, figure))?;
        fs::write(&path, svg).map_err(|error| format!("{}: {error}", path.display()))?;
    }
    Ok(())
}
