//! The commands and their options.

use std::ops::RangeInclusive;
use std::path::PathBuf;

use clap::{ArgGroup, CommandFactory, FromArgMatches, Parser, Subcommand};
use dairyhour::{Layout, MOST_LOSSES};

use crate::hex::{self, Bytes};
use crate::layout;

/// Keeps the rows of raster films safe on a line that drops bits.
///
/// Beside each row of a film goes a short message over a second, checked line. From the messages and the short rows that
/// arrive, `film list` works out every row that can have been sent, with a library whose answers are proved to be
/// complete. Films are PBM files, and are also read from PNG and TIFF of one bit; a file named - is standard input or
/// output. Rows, panels and columns count from 0.
///
/// Exit status: 0 done; 1 a row was not recovered alone, or a check found a difference; 2 bad usage, a bad file, or no
/// process to list rows in; 130 interrupted before all rows were done.
#[derive(Parser)]
#[command(name = "film", version, propagate_version = true)]
#[command(
    after_help = "Examples:\n  film write board.pbm -o board.rsm\n  film list board.rsm board.rx -o recovered.pbm"
)]
pub struct Args {
    #[command(subcommand)]
    pub command: Command,
}

/// The command that was given. Help and bad usage end the program.
pub fn parse() -> Command {
    let found = Args::from_arg_matches(&commands().get_matches());
    found.unwrap_or_else(|error| error.exit()).command
}

/// The commands. A negative number behind an option is its value, so that it is told what the option wants, and not how to
/// give a word that starts with a dash.
fn commands() -> clap::Command {
    let names = |command: &clap::Command| -> Vec<String> {
        command.get_subcommands().map(|command| command.get_name().to_string()).collect()
    };
    let with_numbers = |command: clap::Command| {
        let options: Vec<_> = command.get_opts().map(|option| option.get_id().clone()).collect();
        options
            .into_iter()
            .fold(command, |command, id| command.mut_arg(id, |option| option.allow_negative_numbers(true)))
    };
    let all = Args::command();
    names(&all).into_iter().fold(all, |all, name| all.mut_subcommand(name, with_numbers))
}

#[derive(Subcommand)]
pub enum Command {
    Write(Write),
    Drop(Drop),
    List(List),
    Show(Show),
    Check(Check),
    Plot(Plot),
    Soak(Soak),
    Row(Row),
    /// Lists rows for another process
    #[command(hide = true)]
    Worker,
}

/// Write the messages of a film
///
/// Each row of the film gets one message. A width that no layout has is padded with white on the right; a film wider
/// than a row can be (2,040) is cut into panels side by side, and each row of a panel is a row of the line. The file of
/// messages says so, and `film list` takes the pad off again.
#[derive(clap::Args)]
#[command(after_help = "Examples:\n  film write board.pbm -o board.rsm")]
pub struct Write {
    /// The film (PBM, or PNG or TIFF of one bit)
    pub film: PathBuf,
    /// The file of messages to write
    #[arg(short, long, value_name = "FILM.rsm")]
    pub output: PathBuf,
    #[command(flatten)]
    pub line: Sending,
    #[command(flatten)]
    pub say: Say,
}

/// Send a film over a simulated line that drops bits
///
/// The rows are cut as `film write` cuts them: give the same --layout to both. The same seed drops the same bits.
#[derive(clap::Args)]
#[command(after_help = "Examples:\n  film drop board.pbm --seed 1 --rate 0.001 -o board.rx")]
#[command(group(ArgGroup::new("line").required(true).args(["rate", "burst"])))]
pub struct Drop {
    /// The film (PBM, or PNG or TIFF of one bit)
    pub film: PathBuf,
    /// The file of received rows to write
    #[arg(short, long, value_name = "FILM.rx")]
    pub output: PathBuf,
    /// What decides which bits are dropped
    #[arg(long, default_value_t = 1, value_parser = count::<u64>)]
    pub seed: u64,
    /// The chance of each bit to be dropped, from 0 to 1
    #[arg(long, value_parser = chance)]
    pub rate: Option<f64>,
    /// Each row loses so many bits side by side
    #[arg(long, value_name = "BITS", value_parser = count::<usize>)]
    pub burst: Option<usize>,
    #[command(flatten)]
    pub line: Sending,
    #[command(flatten)]
    pub say: Say,
}

/// List every row that can have been sent
///
/// The film that is written has the only row of each list, or the first of several; a row that is not listed is left
/// white. The report counts them and names each row that was not recovered alone; then the exit status is 1. An interrupt ends
/// the work: the rows that are done are written, the others are left white and marked as not done, and the status is 130. The
/// files of such a run, and of one that could start no process any more (status 2), have .unfinished behind their names, so
/// that a file under its own name is finished.
#[derive(clap::Args)]
#[command(after_help = format!("Examples:\n  film list board.rsm board.rx -o recovered.pbm\n\n{}", refusals()))]
pub struct List {
    /// The messages, as `film write` writes them
    #[arg(value_name = "FILM.rsm")]
    pub messages: PathBuf,
    /// The received rows
    #[arg(value_name = "FILM.rx")]
    pub received: PathBuf,
    /// The film to write (PBM)
    #[arg(short, long, value_name = "OUT.pbm")]
    pub output: PathBuf,
    /// Also write every list as text
    #[arg(long, value_name = "FILE")]
    pub lists: Option<PathBuf>,
    /// Also write a film that is black where the recovered one is not certain: in every row that was not recovered alone
    #[arg(long, value_name = "FILE.pbm")]
    pub mask: Option<PathBuf>,
    /// The film that was sent, where it is known: says whether each list has the row that was sent
    #[arg(long, value_name = "FILM.pbm")]
    pub sent: Option<PathBuf>,
    #[command(flatten)]
    pub work: Work,
    #[command(flatten)]
    pub say: Say,
}

/// Show what a file of messages or of received rows says
#[derive(clap::Args)]
#[command(after_help = "Examples:\n  film show board.rsm --row 17")]
pub struct Show {
    /// A file of messages or of received rows
    #[arg(value_name = "FILE")]
    pub file: PathBuf,
    /// Only this row of the film
    #[arg(long, value_name = "ROW", value_parser = count::<usize>)]
    pub row: Option<usize>,
    /// Only this panel of it
    #[arg(long, value_name = "PANEL", requires = "row", value_parser = count::<usize>)]
    pub panel: Option<usize>,
}

/// Compare two films bit by bit, or a film with its messages
#[derive(clap::Args)]
#[command(after_help = "Examples:\n  film check board.pbm recovered.pbm\n  film check board.pbm board.rsm")]
pub struct Check {
    /// The film (PBM, or PNG or TIFF of one bit)
    pub film: PathBuf,
    /// Another film, or a file of messages
    pub other: PathBuf,
    #[command(flatten)]
    pub say: Say,
}

/// Draw the sent, the received and the recovered film side by side
///
/// In the received film a red mark stands where bits are missing: at the end of the run that lost one, since a loss inside
/// a run looks the same at each of its places. What is short of a row is pale red. In the recovered film each bit that
/// is not as it was sent is red, and rows that were not listed are pale yellow. Without --lists these are the rows that
/// cannot have been listed, since what arrived does not come from them; so the number of listed rows is the greatest
/// possible one.
#[derive(clap::Args)]
#[command(after_help = "Examples:\n  film plot board.pbm board.rx recovered.pbm -o board.png -o board.svg")]
pub struct Plot {
    /// The film that was sent
    #[arg(value_name = "SENT.pbm")]
    pub sent: PathBuf,
    /// The received rows
    #[arg(value_name = "FILM.rx")]
    pub received: PathBuf,
    /// The film that was recovered
    #[arg(value_name = "RECOVERED.pbm")]
    pub recovered: PathBuf,
    /// The lists that `film list --lists` wrote: says which rows were listed
    #[arg(long, value_name = "FILE")]
    pub lists: Option<PathBuf>,
    /// The picture to write, PNG or SVG by its ending, - for PNG; may be given more than once
    #[arg(short, long, value_name = "PICTURE", required = true)]
    pub output: Vec<PathBuf>,
    /// The most pixels that a film is wide in the picture
    #[arg(long, value_name = "PIXELS", default_value_t = 680, value_parser = |text: &str| whole::<u32>(text, 50..=10_000))]
    pub width: u32,
}

/// Try the library on this machine
///
/// Rows of the given films and of every made-up kind are written, robbed of 0 to 12 bits and listed. Each list must hold
/// the row that was sent, and only rows that fit the message and the received row, in order and each once; an
/// independent implementation says so. At the first row that is missing or wrong it stops, prints the case, and ends with
/// status 1. A row that takes longer than patience lasts is given up and described; that is no fault, since some rows that
/// lost many bits take long on every machine.
#[derive(clap::Args)]
#[command(
    after_help = "Examples:\n  film soak --rows 10000 --seed 7 board.pbm\n  film soak --seed 7 --case 123 board.pbm"
)]
pub struct Soak {
    /// Films whose rows are tried beside the made-up ones
    pub films: Vec<PathBuf>,
    /// How many rows are tried
    #[arg(long, default_value_t = 1000, value_parser = count::<usize>)]
    pub rows: usize,
    /// What decides which rows and losses are tried
    #[arg(long, default_value_t = 1, value_parser = count::<u64>)]
    pub seed: u64,
    /// Try only this case again, and show it; the other options must be as they were
    #[arg(long, value_name = "NUMBER", conflicts_with = "rows", value_parser = count::<usize>)]
    pub case: Option<usize>,
    /// Rows that were given up count too: the exit status is then 1
    #[arg(long)]
    pub strict: bool,
    /// The most bits that a row loses
    #[arg(long, value_name = "BITS", default_value_t = MOST_LOSSES, value_parser = |text: &str| whole::<usize>(text, 0..=MOST_LOSSES as u64))]
    pub most: usize,
    /// How rows are cut: l1,l2,nc,r (default: several for made-up rows; for films as `film write` chooses)
    #[arg(long, value_parser = layout::parse, allow_hyphen_values = true)]
    pub layout: Option<Layout>,
    #[command(flatten)]
    pub work: Work,
    #[command(flatten)]
    pub say: Say,
}

#[derive(clap::Args)]
pub struct Work {
    /// Threads, 1 to 256 (default: one for each processor)
    #[arg(long, value_name = "N", value_parser = |text: &str| whole::<u16>(text, 1..=256))]
    pub jobs: Option<u16>,
    /// A row that takes longer is given up and reported; its work is stopped. 0: without limit (default: 60, for `film soak` 1)
    #[arg(long, value_name = "SECONDS", value_parser = seconds)]
    pub patience: Option<f64>,
    /// What is not done after so many seconds is left and marked as not done
    #[arg(long, value_name = "SECONDS", value_parser = seconds)]
    pub deadline: Option<f64>,
    /// The program that lists rows in place of this one
    #[arg(long, hide = true)]
    pub worker: Option<PathBuf>,
}

/// List one row from words on the command line
///
/// Prints what the program rowlist prints: a line with the word count and the number of rows, then each row on a line of its
/// own in capital hexadecimal, in dictionary order; or the word refused and the number of the refusal, and on standard error
/// the refusal in words. It lists as many rows as 65,536 bytes hold.
///
/// Exit status: 0 one row can have been sent; 1 several or none can, more than 12 bits are lost, there are more rows than a list
/// holds, or the row was given up; 2 the words are no message and no row of it (refusals 1 to 6 and 8).
#[derive(clap::Args)]
#[command(after_help = format!("Examples:\n  film row 52534D0001020104004080 3C 6\n\n{}", refusals()))]
pub struct Row {
    /// The message, in hexadecimal
    #[arg(value_parser = hex::parse)]
    pub message: Bytes,
    /// What arrived of the row, packed first bit highest, in hexadecimal
    #[arg(value_parser = hex::parse)]
    pub row: Bytes,
    /// How many bits arrived
    #[arg(value_parser = |text: &str| whole::<u16>(text, 0..=0xFFFF), allow_negative_numbers = true)]
    pub bits: u16,
    /// The row is given up if it takes longer. 0: without limit (default: 60)
    #[arg(long, value_name = "SECONDS", value_parser = seconds)]
    pub patience: Option<f64>,
    /// The program that lists rows in place of this one
    #[arg(long, hide = true)]
    pub worker: Option<PathBuf>,
}

/// How a film is sent.
#[derive(clap::Args)]
pub struct Sending {
    /// How rows are cut: l1,l2,nc,r (default: chosen by the width, with 12 checks or more where it allows)
    #[arg(long, value_parser = layout::parse, allow_hyphen_values = true)]
    pub layout: Option<Layout>,
    /// The version of the file: 2 names the film, 1 is for programs that do not know 2
    #[arg(long, value_name = "VERSION", default_value_t = 2, value_parser = |text: &str| whole::<u8>(text, 1..=2))]
    pub format: u8,
}

#[derive(clap::Args)]
pub struct Say {
    /// Say nothing but errors, and the report if --json asks for it; the exit status tells what came out
    #[arg(short, long)]
    pub quiet: bool,
    /// Report as JSON, for programs; --quiet leaves this report as it is
    #[arg(long)]
    pub json: bool,
}

/// The refusals by their numbers, for the help of a command that lists rows.
fn refusals() -> String {
    let line = |number: u32| format!("{number:>4}  {}\n", dairyhour::Refusal::from_number(number).when());
    format!("Refusals, by their number:\n{}", (1..=9).map(line).collect::<String>())
}

/// A whole number of a range.
fn whole<T: TryFrom<u64>>(text: &str, range: RangeInclusive<u64>) -> Result<T, String> {
    let number = text.parse().ok().filter(|number| range.contains(number));
    number.and_then(|number| T::try_from(number).ok()).ok_or_else(|| match range.into_inner() {
        (0, u64::MAX) => String::from("a whole number is wanted, 0 or more"),
        (from, to) => format!("a whole number from {from} to {to} is wanted"),
    })
}

/// A whole number.
fn count<T: TryFrom<u64>>(text: &str) -> Result<T, String> {
    whole(text, 0..=u64::MAX)
}

fn chance(text: &str) -> Result<f64, String> {
    match text.parse() {
        Ok(rate) if (0.0..=1.0).contains(&rate) => Ok(rate),
        _ => Err(String::from("a number from 0 to 1 is wanted")),
    }
}

fn seconds(text: &str) -> Result<f64, String> {
    match text.parse() {
        Ok(seconds) if (0.0..=1e9).contains(&seconds) => Ok(seconds),
        _ => Err(String::from("a number of seconds is wanted, 0 or more")),
    }
}

#[cfg(test)]
mod tests {
    use super::*;
    use dairyhour::{LONGEST_LIST, LONGEST_ROW};

    #[test]
    fn the_commands_are_well_formed() {
        commands().debug_assert();
    }

    #[test]
    fn the_help_names_the_limits() {
        let with_comma = |number: usize| format!("{},{:03}", number / 1000, number % 1000);
        let mut commands = commands();
        for (name, words) in [
            ("write", format!("wider than a row can be ({})", with_comma(LONGEST_ROW))),
            ("soak", format!("robbed of 0 to {MOST_LOSSES} bits")),
            ("row", format!("as many rows as {} bytes hold", with_comma(LONGEST_LIST))),
            ("row", format!("more than {MOST_LOSSES} bits are lost")),
        ] {
            let command = commands.find_subcommand_mut(name).expect("a command of the tool");
            let help = command.render_long_help().to_string();
            let line = help.split_whitespace().collect::<Vec<_>>().join(" ");
            assert!(line.contains(&words), "{name}: {line}");
        }
    }
}
