//! Holds the proved library and its programs against the second program.

mod agreement;
mod alone;
mod cases;
mod damage;
mod interchange;
mod outcome;
mod pair;
mod program;
mod response;
#[cfg(test)]
mod segments;
mod show;
mod shrink;
mod tally;
#[cfg(test)]
mod wrong;

use acknowledgment::number_and_length;
use outcome::Outcomes;
use second::generator::Case;
use second::{answer, answer_interchange};
use std::io;
use std::path::Path;
use std::process::ExitCode;
use tally::Tally;

const USAGE: &str = "\
usage: compare cases [--seed S] [--count N]
       compare damage [--seed S] [--count N]
       compare program ack|ta1 PATH [--seed S] [--count N]";

/// Where what went wrong is written.
const DIFFERENCES: &str = "target/differences";

fn main() -> ExitCode {
    let words: Vec<String> = std::env::args().skip(1).collect();
    let words: Vec<&str> = words.iter().map(String::as_str).collect();
    let mut tally = Tally::new(Path::new(DIFFERENCES));
    match run(&words, &mut tally) {
        None => {
            eprintln!("{USAGE}");
            ExitCode::from(2)
        }
        Some(Err(error)) => {
            eprintln!("compare: {error}");
            ExitCode::FAILURE
        }
        Some(Ok(())) => {
            println!("{tally}");
            if tally.all_passed() {
                ExitCode::SUCCESS
            } else {
                ExitCode::FAILURE
            }
        }
    }
}

/// Nothing where the words are no command.
fn run(words: &[&str], tally: &mut Tally) -> Option<io::Result<()>> {
    match words {
        ["cases", options @ ..] => {
            let (seed, count) = seed_and_count(options, 200_000)?;
            Some(cases::compare(Outcomes::of_library, seed, count, tally))
        }
        ["damage", options @ ..] => {
            let (seed, count) = seed_and_count(options, 5_000)?;
            let library =
                |case: &Case, lent: u8| outcome::of_library(number_and_length, case, lent);
            Some(damage::check(library, seed, count, tally))
        }
        ["program", name, path, options @ ..] => {
            let entry = entry_of(name)?;
            let (seed, count) = seed_and_count(options, 200)?;
            Some(program::compare(entry, path, seed, count, tally))
        }
        _ => None,
    }
}

/// The entry of the second program that a program is held against.
fn entry_of(program: &str) -> Option<second::Entry> {
    match program {
        "ack" => Some(answer),
        "ta1" => Some(answer_interchange),
        _ => None,
    }
}

fn seed_and_count(options: &[&str], count: u64) -> Option<(u64, u64)> {
    let mut found = (1, count);
    for option in options.chunks(2) {
        match option {
            ["--seed", seed] => found.0 = seed.parse().ok()?,
            ["--count", count] => found.1 = count.parse().ok()?,
            _ => return None,
        }
    }
    Some(found)
}
