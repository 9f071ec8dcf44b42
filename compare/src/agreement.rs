//! That the two entries agree: a 997 only where TA1 says A.

use crate::outcome::{Outcome, Outcomes};
use second::generator::Case;

/// Where ISA14 stands.
pub const ISA14: usize = 100;

/// The length of an interchange with one TA1.
pub const TA1_LENGTH: usize = 154;

/// The length of ISA.
const ISA_LENGTH: usize = 106;

/// Whether the entries agree on a case, by what they leave behind alone.
pub fn agree(case: &Case, outcomes: &Outcomes) -> bool {
    let number = outcomes.acknowledgment.number;
    let told = &outcomes.interchange;
    match number {
        1..=5 => told.number == number,
        _ if case.interchange.get(ISA14) != Some(&b'1') => told.number == 15,
        _ if case.buffer_length < TA1_LENGTH => (told.number, told.length) == (14, TA1_LENGTH),
        _ => told.number == 0 && verdict_fits(number, told) && same_isa(outcomes),
    }
}

/// Whether both responses begin with the same ISA, where there are two.
fn same_isa(outcomes: &Outcomes) -> bool {
    let [group, envelope] = [&outcomes.acknowledgment, &outcomes.interchange];
    group.number != 0 || group.response()[..ISA_LENGTH] == envelope.response()[..ISA_LENGTH]
}

/// Whether verdict and note code of TA1 go with the number of the other entry.
fn verdict_fits(number: u32, told: &Outcome) -> bool {
    matches!(
        (verdict_and_note(told.response()), number),
        (Some([b"A", b"000"]), 0 | 9..=14)
            | (Some([b"R", b"023"]), 6)
            | (Some([b"R", b"022"]), 7 | 8)
            | (Some([b"R", b"001" | b"021"]), 8)
    )
}

/// TA104 and TA105 of a response that has TA1 after its ISA.
fn verdict_and_note(response: &[u8]) -> Option<[&[u8]; 2]> {
    let (separator, terminator) = (response.get(3)?, response.get(105)?);
    let ta1 = response.split(|byte| byte == terminator).nth(1)?;
    let fields: Vec<&[u8]> = ta1.split(|byte| byte == separator).collect();
    match fields[..] {
        [b"TA1", _, _, _, verdict, note] => Some([verdict, note]),
        _ => None,
    }
}
