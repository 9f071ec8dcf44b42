//! The programs `ack` and `ta1` against the second program, on generated
//! standard inputs.

use crate::tally::Tally;
use second::exchange::exchange;
use second::generator::standard_input;
use second::Entry;
use std::io::{self, ErrorKind, Write};
use std::process::{Command, Output, Stdio};

/// Compares what the program of an entry prints on the standard inputs of a
/// seed.
pub fn compare(
    entry: Entry,
    program: &str,
    seed: u64,
    count: u64,
    tally: &mut Tally,
) -> io::Result<()> {
    for index in 0..count {
        let input = standard_input(seed, index);
        let expected = exchange(entry, &input);
        let output = run(program, &input)?;
        if output.status.success() && output.stdout == expected {
            tally.pass();
        } else {
            let name = format!("program-{seed}-{index}");
            tally.fail(&name, || difference(&input, &expected, &output))?;
        }
    }
    Ok(())
}

fn run(program: &str, input: &[u8]) -> io::Result<Output> {
    let mut child = Command::new(program)
        .stdin(Stdio::piped())
        .stdout(Stdio::piped())
        .spawn()?;
    let written = child
        .stdin
        .take()
        .map_or(Ok(()), |mut stdin| stdin.write_all(input));
    match written {
        // What is too long need not be read to its end.
        Err(error) if error.kind() != ErrorKind::BrokenPipe => Err(error),
        _ => child.wait_with_output(),
    }
}

fn difference(input: &[u8], expected: &[u8], output: &Output) -> String {
    format!(
        "Standard input:\n{}\n\nThe second program:\n{}\n\nThe program, {}:\n{}\n",
        input.escape_ascii(),
        expected.escape_ascii(),
        output.status,
        output.stdout.escape_ascii(),
    )
}

#[cfg(test)]
mod tests {
    use super::*;
    use second::{answer, answer_interchange};
    use std::fs;

    fn told(program: &str) -> [String; 2] {
        [("ack", answer as Entry), ("ta1", answer_interchange)].map(|(name, entry)| {
            let process = std::process::id();
            let folder = std::env::temp_dir().join(format!("compare-{name}-{program}-{process}"));
            let mut tally = Tally::new(&folder);
            compare(entry, program, 990, 20, &mut tally).unwrap();
            fs::remove_dir_all(folder).unwrap();
            tally.to_string()
        })
    }

    #[test]
    fn a_program_that_prints_something_else_is_caught() {
        assert_eq!(told("cat"), ["0 passed, 20 failed"; 2]);
    }

    #[test]
    fn a_program_that_prints_nothing_is_caught() {
        assert_eq!(told("true"), ["0 passed, 20 failed"; 2]);
    }
}
