//! Making a case smaller that shows a difference.

use second::generator::Case;
use std::time::{Duration, Instant};

/// A long case may stay long, but a run ends.
const PATIENCE: Duration = Duration::from_secs(20);

/// The case with as few segments, and then bytes, as still show it.
pub fn shrunk(case: &Case, differs: impl Fn(&Case) -> bool) -> Case {
    let start = Instant::now();
    let with = |pieces: &[&[u8]]| Case {
        interchange: pieces.concat(),
        ..case.clone()
    };
    let differs = |pieces: &[&[u8]]| start.elapsed() < PATIENCE && differs(&with(pieces));
    let terminator = case.interchange.get(105);
    let segments = case
        .interchange
        .split_inclusive(|byte| Some(byte) == terminator);
    let segments = thinned(segments.collect(), differs);
    let bytes = segments.iter().flat_map(|segment| segment.chunks(1));
    with(&thinned(bytes.collect(), differs))
}

/// Leaves out runs of pieces, long ones first, as long as it differs.
fn thinned<'a>(mut pieces: Vec<&'a [u8]>, differs: impl Fn(&[&'a [u8]]) -> bool) -> Vec<&'a [u8]> {
    let mut run = pieces.len();
    while run > 0 {
        let mut at = 0;
        while at < pieces.len() {
            let mut fewer = pieces.clone();
            fewer.drain(at..pieces.len().min(at + run));
            if differs(&fewer) {
                pieces = fewer;
            } else {
                at += run;
            }
        }
        run /= 2;
    }
    pieces
}
