//! What a call leaves behind, by the proved library and by the second program.

use acknowledgment::{interchange_number_and_length, number_and_length, Numbers};
use second::generator::Case;
use second::{answer, answer_interchange};

/// Bytes on both sides of a buffer that are not lent, and must stay.
const MARGIN: usize = 64;

#[derive(Debug, Clone, PartialEq, Eq)]
pub struct Outcome {
    pub number: u32,
    pub length: usize,
    /// The buffer between its margins.
    memory: Vec<u8>,
}

impl Outcome {
    /// The first byte of memory that is not the same, counted from the start
    /// of the buffer.
    pub fn first_difference(&self, other: &Outcome) -> Option<isize> {
        let mut pairs = self.memory.iter().zip(&other.memory);
        let at = pairs.position(|(one, other)| one != other)?;
        Some(at as isize - MARGIN as isize)
    }

    fn buffer(&self) -> &[u8] {
        &self.memory[MARGIN..self.memory.len() - MARGIN]
    }

    /// As much of the response as the buffer can hold.
    pub fn response(&self) -> &[u8] {
        let buffer = self.buffer();
        &buffer[..self.length.min(buffer.len())]
    }

    #[cfg(test)]
    pub fn buffer_mut(&mut self) -> &mut [u8] {
        let end = self.memory.len() - MARGIN;
        &mut self.memory[MARGIN..end]
    }
}

/// What `call` makes of a buffer of this case, of which every byte is `lent`.
pub fn outcome(case: &Case, lent: u8, call: impl FnOnce(&mut [u8]) -> (u32, usize)) -> Outcome {
    let mut memory = vec![lent; MARGIN + case.buffer_length + MARGIN];
    let (number, length) = call(&mut memory[MARGIN..][..case.buffer_length]);
    Outcome {
        number,
        length,
        memory,
    }
}

/// An entry of the library.
type LibraryEntry = fn(&[u8], &mut [u8], Numbers) -> (u32, usize);

pub fn of_library(entry: LibraryEntry, case: &Case, lent: u8) -> Outcome {
    let numbers = Numbers {
        date: case.date,
        time: case.time,
        control: case.control,
    };
    outcome(case, lent, |buffer| {
        entry(&case.interchange, buffer, numbers)
    })
}

pub fn of_second(entry: second::Entry, case: &Case, lent: u8) -> Outcome {
    outcome(case, lent, |buffer| {
        let answer = case.answer_by(entry);
        let response = answer.response();
        buffer[..response.len()].copy_from_slice(response);
        (u32::from(answer.number()), answer.length())
    })
}

/// What both entries leave behind on the same case, each in a buffer of its own.
#[derive(Debug, Clone, PartialEq, Eq)]
pub struct Outcomes {
    /// Of the entry that answers with a 997.
    pub acknowledgment: Outcome,
    /// Of the entry that answers with a TA1.
    pub interchange: Outcome,
}

impl Outcomes {
    pub fn of_library(case: &Case, lent: u8) -> Self {
        Outcomes {
            acknowledgment: of_library(number_and_length, case, lent),
            interchange: of_library(interchange_number_and_length, case, lent),
        }
    }

    pub fn of_second(case: &Case, lent: u8) -> Self {
        Outcomes {
            acknowledgment: of_second(answer, case, lent),
            interchange: of_second(answer_interchange, case, lent),
        }
    }
}

#[cfg(test)]
mod tests {
    use super::*;

    #[test]
    fn a_byte_written_outside_the_buffer_is_a_difference() {
        let case = Case::make(990, 0);
        let outcome = of_second(answer, &case, 0);
        for outside in [MARGIN - 1, MARGIN + case.buffer_length] {
            let mut other = outcome.clone();
            other.memory[outside] = 1;
            assert_ne!(other, outcome);
        }
    }
}
