//! The whole exchange, as the programs `ack` and `ta1` do it.

use crate::refusal::Refusal;
use crate::values::decimal;
use crate::{Answer, Entry};

/// The length of the buffer the program lends for the response.
pub const RESPONSE_BUFFER: usize = 65_536;

/// What the program of an entry prints for what it read on standard input.
pub fn exchange(entry: Entry, standard_input: &[u8]) -> Vec<u8> {
    match answer_input(entry, standard_input) {
        Answer::Acknowledged(response) => response,
        Answer::Refused(refusal) => format!("refused {}\n", refusal.number()).into_bytes(),
    }
}

fn answer_input(entry: Entry, standard_input: &[u8]) -> Answer {
    match read_input(standard_input) {
        Some(([date, time, control], interchange)) => {
            entry(interchange, RESPONSE_BUFFER, date, time, control)
        }
        None => Answer::Refused(Refusal::CallerNumbers),
    }
}

/// The numbers of the first line, and the interchange after its LF.
fn read_input(standard_input: &[u8]) -> Option<([u32; 3], &[u8])> {
    let line_feed = standard_input.iter().position(|&byte| byte == b'\n')?;
    let numbers = caller_numbers(&standard_input[..line_feed])?;
    Some((numbers, &standard_input[line_feed + 1..]))
}

/// 8, 4 and 1 to 9 digits with one space between.
fn caller_numbers(line: &[u8]) -> Option<[u32; 3]> {
    let fields: Vec<&[u8]> = line.split(|&byte| byte == b' ').collect();
    let [date, time, control] = fields[..] else {
        return None;
    };
    if date.len() != 8 || time.len() != 4 {
        return None;
    }
    Some([digits(date)?, digits(time)?, digits(control)?])
}

fn digits(field: &[u8]) -> Option<u32> {
    decimal(field, 9)?.try_into().ok()
}
