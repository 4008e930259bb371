//! The tool `film`: a film's messages are written, its rows listed, and what came out is compared and shown.
//! `film --help` says what each command does; docs/FORMAT.md describes the files.
#![forbid(unsafe_code)]

mod args;
mod board;
mod command;
mod cut;
mod files;
mod from_png;
mod from_tiff;
mod glyphs;
mod hand;
mod hex;
mod histogram;
mod json;
mod layout;
mod line;
mod lister;
mod lists;
mod pbm;
mod picture;
mod progress;
mod scale;
mod stop;
mod tally;
mod trouble;
mod verdict;
mod worker;

use std::process::ExitCode;

use args::Command;
use trouble::{Result, Trouble};

fn main() -> ExitCode {
    match run(&args::parse()) {
        Ok(status) => ExitCode::from(status),
        Err(trouble) => {
            files::complain(&format!("film: {trouble}"));
            ExitCode::from(2)
        }
    }
}

/// Answers the exit status.
fn run(command: &Command) -> Result<u8> {
    match command {
        Command::Write(args) => command::write::run(args).map(status),
        Command::Drop(args) => command::drop::run(args).map(status),
        Command::List(args) => command::list::run(args),
        Command::Show(args) => command::show::run(args).map(status),
        Command::Check(args) => command::check::run(args).map(status),
        Command::Plot(args) => command::plot::run(args).map(status),
        Command::Soak(args) => command::soak::run(args),
        Command::Row(args) => command::row::run(args),
        Command::Worker => worker::serve().map(|()| 0).map_err(|error| Trouble::with("worker", error)),
    }
}

/// The status of a command after which every row was recovered alone, or every comparison came out the same, or not.
pub fn status(well: bool) -> u8 {
    u8::from(!well)
}
