//! Envelopes of which TA1 tells: with one fault or several, around groups that
//! are answered or refused.

use super::draft::Draft;
use super::prng::Prng;
use crate::exchange::RESPONSE_BUFFER;

/// The refusals to provoke: the highest comes first, and there may be none.
pub fn refusals(prng: &mut Prng) -> Vec<u8> {
    let mut numbers = Vec::new();
    if prng.percent(30) {
        numbers.push(prng.byte_between(9, 13));
    }
    for (number, chance) in [(8, 50), (7, 15), (6, 15)] {
        if prng.percent(chance) {
            numbers.push(number);
        }
    }
    if prng.percent(10) {
        numbers.push(prng.byte_between(1, 5));
    }
    numbers
}

/// Fills ISA09 and ISA10 with a day and a time, or with what looks like them.
pub fn put_date_and_time(prng: &mut Prng, draft: &mut Draft) {
    let (isa09, isa10) = (8, 9);
    let dates = ["240315", "240229", "230230", "000000", "991399", "      "];
    let times = ["0915", "0000", "2400", "9999", "    "];
    draft.isa[isa09] = prng.pick(&dates).as_bytes().to_vec();
    draft.isa[isa10] = prng.pick(&times).as_bytes().to_vec();
}

/// A TA1 needs 154 bytes.
pub fn buffer_length(prng: &mut Prng) -> usize {
    match prng.below(20) {
        0 => 0,
        1 => *prng.pick(&[1, 106, 138]),
        2..5 => 153,
        5..8 => 154,
        8 => 155,
        _ => RESPONSE_BUFFER,
    }
}
