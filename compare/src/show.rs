//! Cases and answers as text.

use crate::outcome::Outcome;
use second::generator::Case;

/// The numbers of a case, and its interchange.
pub fn case(case: &Case) -> String {
    format!(
        "date {}, time {}, control number {}, a buffer of {} bytes, an interchange of {} bytes:\n{}",
        case.date,
        case.time,
        case.control,
        case.buffer_length,
        case.interchange.len(),
        lines(&case.interchange),
    )
}

pub fn outcome(outcome: &Outcome) -> String {
    let numbers = format!("number {}, length {}\n", outcome.number, outcome.length);
    match outcome.number {
        0 => numbers + &lines(outcome.response()),
        _ => numbers,
    }
}

/// Segments in lines, with bytes beyond ASCII text escaped.
fn lines(bytes: &[u8]) -> String {
    let terminator = bytes.get(105);
    bytes
        .split_inclusive(|byte| Some(byte) == terminator)
        .map(|segment| format!("    {}\n", segment.escape_ascii()))
        .collect()
}
