//! Times the tool `film` on a whole film whose rows lost a bit each: how many rows a second it lists in its own process and in
//! workers, and how much of that time is spent in the library.

use std::path::{Path, PathBuf};
use std::process::Command;
use std::{env, fs, process, thread};

use bench::results::{Record, Store, Tool};
use dairyhour::LONGEST_ROW;

use crate::films::{packed_rows, COLDFIRE_N2040};
use crate::words::pairs;

pub const USAGE: &str = "\
bench tool film=PROGRAM [WORD=VALUE]...
  film=PROGRAM  the tool
  rows=20000    of the film
  turns=5       how often it is listed in each way; the middle one counts
  out=FOLDER    where tool.tsv is written; nowhere if not given";

/// The columns of the film: as many as the longest row has.
const WIDTH: usize = LONGEST_ROW;

/// How the tool lists, and what it is told for that.
const WAYS: [(&str, &[&str]); 2] = [("own process", &["--patience", "0"]), ("workers", &[])];

struct Choice {
    film: PathBuf,
    rows: usize,
    turns: usize,
    out: Option<PathBuf>,
}

fn choice(words: &[String]) -> Option<Choice> {
    let mut choice = Choice { film: PathBuf::new(), rows: 20_000, turns: 5, out: None };
    for (name, text) in pairs(words)? {
        match name {
            "film" => choice.film = PathBuf::from(text),
            "rows" => choice.rows = text.parse().ok().filter(|rows| *rows > 0)?,
            "turns" => choice.turns = text.parse().ok().filter(|turns| *turns > 0)?,
            "out" => choice.out = Some(PathBuf::from(text)),
            _ => return None,
        }
    }
    Some(choice).filter(|choice| choice.film.is_file())
}

/// Times what the words choose. Answers what went wrong.
pub fn run(words: &[String]) -> Result<(), String> {
    let mut choice = choice(words).ok_or_else(|| format!("usage: {USAGE}"))?;
    choice.film = fs::canonicalize(&choice.film).map_err(|error| error.to_string())?;
    let folder = env::temp_dir().join(format!("dairyhour-bench-{}", process::id()));
    fs::create_dir_all(&folder).map_err(|error| error.to_string())?;
    let done = time_all(&choice, &folder);
    // What went wrong before is what is to be said.
    let _ = fs::remove_dir_all(&folder);
    done
}

fn time_all(choice: &Choice, folder: &Path) -> Result<(), String> {
    let film = [format!("P4\n{WIDTH} {}\n", choice.rows).into_bytes(), rows(choice.rows)].concat();
    fs::write(folder.join("film.pbm"), film).map_err(|error| error.to_string())?;
    film_tool(choice, folder, &["write", "film.pbm", "-o", "film.rsm"])?;
    film_tool(choice, folder, &["drop", "film.pbm", "--burst", "1", "-o", "film.rx"])?;
    let mut turns = [Vec::new(), Vec::new()];
    for _ in 0..choice.turns {
        for (turns, (way, words)) in turns.iter_mut().zip(WAYS) {
            turns.push(time_once(choice, folder, way, words)?);
        }
    }
    let mut store = choice.out.as_deref().map(Store::new::<Tool>).transpose().map_err(|error| error.to_string())?;
    println!("{}", Tool::HEAD.join("\t"));
    for mut turns in turns {
        turns.sort_by(|a, b| a.rate.total_cmp(&b.rate));
        let middle = &turns[turns.len() / 2];
        println!("{}", middle.fields().join("\t"));
        store.as_mut().map_or(Ok(()), |store| store.add(middle)).map_err(|error| error.to_string())?;
    }
    Ok(())
}

/// So many rows of a real film, from its top again where it ends.
fn rows(count: usize) -> Vec<u8> {
    packed_rows(COLDFIRE_N2040, WIDTH).into_iter().cycle().take(count).flatten().copied().collect()
}

fn time_once(choice: &Choice, folder: &Path, way: &str, words: &[&str]) -> Result<Tool, String> {
    let jobs = thread::available_parallelism().map_or(1, usize::from);
    let list = ["list", "film.rsm", "film.rx", "-o", "out.pbm", "--json", "--jobs", &jobs.to_string()];
    let report = film_tool(choice, folder, &[&list[..], words].concat())?;
    let number = |name: &str| number(&report, name).ok_or_else(|| format!("the report has no {name}: {report}"));
    let share = number("listing_seconds")? / (number("seconds")? * jobs as f64);
    Ok(Tool { way: way.into(), rows: choice.rows, bits: WIDTH, lost: 1, jobs, rate: number("rows_a_second")?, share })
}

/// Runs the tool, and answers what it printed.
fn film_tool(choice: &Choice, folder: &Path, words: &[&str]) -> Result<String, String> {
    let output =
        Command::new(&choice.film).current_dir(folder).args(words).output().map_err(|error| error.to_string())?;
    match output.status.code() {
        Some(0) => Ok(String::from_utf8_lossy(&output.stdout).into_owned()),
        _ => Err(format!("film {}: {}", words.join(" "), String::from_utf8_lossy(&output.stderr))),
    }
}

/// A number of the report, by its name.
fn number(report: &str, name: &str) -> Option<f64> {
    let (_, rest) = report.split_once(&format!("\"{name}\":"))?;
    rest.split([',', '}']).next()?.parse().ok()
}

#[cfg(test)]
mod tests {
    use super::*;

    #[test]
    fn numbers_of_a_report() {
        let report = "{\"rows\":3,\"seconds\":0.5,\"listing_seconds\":0.25}";
        assert_eq!(number(report, "seconds"), Some(0.5));
        assert_eq!(number(report, "listing_seconds"), Some(0.25));
        assert_eq!(number(report, "none"), None);
    }

    #[test]
    fn a_film_of_any_height() {
        let all = packed_rows(COLDFIRE_N2040, WIDTH);
        let found = rows(all.len() + 1);
        assert_eq!(found.len(), (all.len() + 1) * 255);
        assert_eq!(found[all.len() * 255..], found[..255]);
    }
}
