//! The benchmark. `bench calls` times writing, reading and mending, `bench list` listing, and `bench setups` makes the
//! source's Table II, each beside other implementations in one run and on the same inputs; `bench tool` times the tool
//! `film` on a whole film; `bench machine` stores what they ran on, and `bench report` makes a page of what they stored.
#![forbid(unsafe_code)]

mod budget;
mod calls;
mod cases;
mod clock;
mod films;
mod lists;
mod machine;
mod peer;
mod report;
mod rows;
mod setups;
mod targets;
mod tool;
mod words;
mod worker;

use std::path::Path;
use std::{env, process};

fn main() {
    let words: Vec<String> = env::args().skip(1).collect();
    let (command, rest) = words.split_first().map_or(("", &[][..]), |(command, rest)| (&command[..], rest));
    let result = match command {
        "calls" => calls::run(rest),
        "list" => lists::run(rest),
        "setups" => setups::run(rest),
        "tool" => tool::run(rest),
        "machine" if rest.len() == 1 => machine::store(Path::new(&rest[0])).map_err(|error| error.to_string()),
        "report" => report::run(rest),
        worker::WORD => {
            worker::serve();
            Ok(())
        }
        _ => Err(usage()),
    };
    if let Err(text) = result {
        eprintln!("{text}");
        process::exit(2);
    }
}

fn usage() -> String {
    let all = [calls::USAGE, lists::USAGE, setups::USAGE, tool::USAGE, "bench machine FOLDER", report::USAGE];
    format!("usage:\n{}", all.join("\n"))
}
