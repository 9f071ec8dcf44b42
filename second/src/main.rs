//! `second ack`, `second ta1` and `second generate`.

use second::exchange::exchange;
use second::generator::cases;
use second::generator::coverage::Coverage;
use second::{answer, answer_interchange, Entry};
use std::io::{self, Read, Write};
use std::process::ExitCode;

const USAGE: &str = "usage: second ack | second ta1 | second generate --seed S --count N";

fn main() -> ExitCode {
    let arguments: Vec<String> = std::env::args().skip(1).collect();
    let arguments: Vec<&str> = arguments.iter().map(String::as_str).collect();
    let outcome = match arguments[..] {
        ["ack"] => answer_standard_input(answer),
        ["ta1"] => answer_standard_input(answer_interchange),
        ["generate", "--seed", seed, "--count", count] => match (seed.parse(), count.parse()) {
            (Ok(seed), Ok(count)) => generate(seed, count),
            _ => return usage(),
        },
        _ => return usage(),
    };
    match outcome {
        Ok(()) => ExitCode::SUCCESS,
        Err(error) => {
            eprintln!("second: {error}");
            ExitCode::FAILURE
        }
    }
}

fn usage() -> ExitCode {
    eprintln!("{USAGE}");
    ExitCode::from(2)
}

/// Answers standard input on standard output.
fn answer_standard_input(entry: Entry) -> io::Result<()> {
    let mut input = Vec::new();
    io::stdin().lock().read_to_end(&mut input)?;
    print(&exchange(entry, &input))
}

/// Makes cases, answers them and prints what they covered.
fn generate(seed: u64, count: usize) -> io::Result<()> {
    let mut coverage = Coverage::default();
    for case in cases(seed).take(count) {
        coverage.count(&case);
    }
    print(coverage.to_string().as_bytes())
}

fn print(bytes: &[u8]) -> io::Result<()> {
    let mut output = io::stdout().lock();
    output.write_all(bytes)?;
    output.flush()
}
