//! What the examples share: they read the exchange in a file, which is a line
//! of date, time and control number and then the interchange, as in `samples/`,
//! and print an answer to it.

use acknowledgment::{Numbers, Refusal};
use std::error::Error;
use std::io::{self, Write};
use std::ops::RangeInclusive;
use std::process::ExitCode;
use std::{env, fs, str};

/// Reads the file that the command line names and has the interchange answered.
/// What goes wrong is told by the name of the example.
pub fn run(example: &str, answer: impl Fn(&[u8], Numbers) -> io::Result<ExitCode>) -> ExitCode {
    match answer_file(answer) {
        Ok(code) => code,
        Err(error) => {
            eprintln!("{example}: {error}");
            ExitCode::from(2)
        }
    }
}

/// Prints a response, or `refused` and the number of the refusal.
pub fn print(answer: Result<&[u8], Refusal>) -> io::Result<ExitCode> {
    match answer {
        Ok(response) => {
            io::stdout().write_all(response)?;
            io::stdout().flush()?;
            Ok(ExitCode::SUCCESS)
        }
        Err(refusal) => {
            println!("refused {}", refusal.number());
            Ok(ExitCode::FAILURE)
        }
    }
}

fn answer_file(
    answer: impl Fn(&[u8], Numbers) -> io::Result<ExitCode>,
) -> Result<ExitCode, Box<dyn Error>> {
    let path = env::args_os()
        .nth(1)
        .ok_or("give the file of one exchange")?;
    let exchange = fs::read(path)?;
    let (numbers, interchange) =
        split(&exchange).ok_or("the first line is not date, time and control number")?;
    Ok(answer(interchange, numbers)?)
}

/// The numbers of the first line, and the interchange after it.
fn split(exchange: &[u8]) -> Option<(Numbers, &[u8])> {
    let line_feed = exchange.iter().position(|&byte| byte == b'\n')?;
    let line = str::from_utf8(&exchange[..line_feed]).ok()?;
    let [date, time, control] = line.split(' ').collect::<Vec<_>>()[..] else {
        return None;
    };
    let numbers = Numbers {
        date: number(date, 8..=8)?,
        time: number(time, 4..=4)?,
        control: number(control, 1..=9)?,
    };
    Some((numbers, &exchange[line_feed + 1..]))
}

/// A number of so many digits.
fn number(field: &str, digits: RangeInclusive<usize>) -> Option<u32> {
    let is_number =
        digits.contains(&field.len()) && field.bytes().all(|byte| byte.is_ascii_digit());
    is_number.then(|| field.parse().ok())?
}
