//! The delimiters of an interchange, three or four (refusal 4), and the valid
//! bytes.

use crate::refusal::Refusal;

#[derive(Debug, Clone, Copy, PartialEq, Eq)]
pub struct Delimiters {
    pub element: u8,
    pub component: u8,
    pub terminator: u8,
    /// Nothing where ISA11 is text.
    pub repetition: Option<u8>,
}

impl Delimiters {
    pub fn check(self) -> Result<Self, Refusal> {
        let three = [self.element, self.component, self.terminator];
        let all: Vec<u8> = three.into_iter().chain(self.repetition).collect();
        let equal = (1..all.len()).any(|at| all[..at].contains(&all[at]));
        if equal || all.into_iter().any(is_letter_digit_or_space) {
            return Err(Refusal::Delimiters);
        }
        Ok(self)
    }

    /// The basic and extended character sets within ASCII, less the delimiters.
    pub fn is_valid(&self, byte: u8) -> bool {
        (32..=126).contains(&byte)
            && byte != self.element
            && byte != self.component
            && byte != self.terminator
            && Some(byte) != self.repetition
    }

    pub fn all_valid(&self, bytes: &[u8]) -> bool {
        bytes.iter().all(|&byte| self.is_valid(byte))
    }

    /// Whether a repetition separator stands in an element.
    pub fn repeats(&self, element: &[u8]) -> bool {
        self.repetition.is_some_and(|byte| element.contains(&byte))
    }
}

fn is_letter_digit_or_space(byte: u8) -> bool {
    byte.is_ascii_alphanumeric() || byte == b' '
}
