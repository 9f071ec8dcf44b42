//! The interchange control header, cut at fixed places (refusals 2 to 5).

use crate::delimiters::Delimiters;
use crate::refusal::Refusal;
use crate::values::{all_digits, decimal};

/// The length of ISA with its terminator.
pub const ISA_LENGTH: usize = 106;

pub const LONGEST_INTERCHANGE: usize = 65_536;

/// Where the sixteen separators stand.
pub const SEPARATORS: [usize; 16] = [
    3, 6, 17, 20, 31, 34, 50, 53, 69, 76, 81, 83, 89, 99, 101, 103,
];

const COMPONENT_SEPARATOR: usize = 104;
const TERMINATOR: usize = 105;

/// The number of the field that is a delimiter in some interchanges.
const REPETITION_SEPARATOR: usize = 11;

/// From this ISA12 on, ISA11 is a delimiter.
const FIRST_WITH_REPETITION: u64 = 402;

/// What ISA11 says where there are no repetitions.
const NO_REPETITION: u8 = b'U';

/// The number of fields before ISA16, which is a delimiter and no data.
const DATA_FIELDS: usize = 15;

pub struct Isa<'a> {
    pub delimiters: Delimiters,
    interchange: &'a [u8],
}

impl<'a> Isa<'a> {
    pub fn read(interchange: &'a [u8]) -> Result<Self, Refusal> {
        if !(ISA_LENGTH..=LONGEST_INTERCHANGE).contains(&interchange.len()) {
            return Err(Refusal::InterchangeSize);
        }
        check_separators(interchange)?;
        let delimiters = Delimiters {
            element: interchange[SEPARATORS[0]],
            component: interchange[COMPONENT_SEPARATOR],
            terminator: interchange[TERMINATOR],
            repetition: repetition_separator(interchange),
        }
        .check()?;
        let isa = Isa {
            delimiters,
            interchange,
        };
        isa.check_fields()?;
        Ok(isa)
    }

    /// ISA01 to ISA15 by their number.
    fn field(&self, number: usize) -> &'a [u8] {
        field(self.interchange, number)
    }

    fn check_fields(&self) -> Result<(), Refusal> {
        let is_valid = |number| self.delimiters.all_valid(self.field(number));
        let all_valid =
            (1..=DATA_FIELDS).all(|number| self.is_delimiter(number) || is_valid(number));
        let known_usage = matches!(self.usage_indicator(), b"P" | b"T" | b"I");
        if !all_valid || !all_digits(self.control_number()) || !known_usage {
            return Err(Refusal::IsaFields);
        }
        Ok(())
    }

    fn is_delimiter(&self, number: usize) -> bool {
        number == REPETITION_SEPARATOR && self.delimiters.repetition.is_some()
    }

    /// ISA05
    pub fn sender_qualifier(&self) -> &'a [u8] {
        self.field(5)
    }

    /// ISA06
    pub fn sender(&self) -> &'a [u8] {
        self.field(6)
    }

    /// ISA07
    pub fn receiver_qualifier(&self) -> &'a [u8] {
        self.field(7)
    }

    /// ISA08
    pub fn receiver(&self) -> &'a [u8] {
        self.field(8)
    }

    /// ISA09
    pub fn date(&self) -> &'a [u8] {
        self.field(9)
    }

    /// ISA10
    pub fn time(&self) -> &'a [u8] {
        self.field(10)
    }

    /// ISA13
    pub fn control_number(&self) -> &'a [u8] {
        self.field(13)
    }

    /// ISA14
    pub fn acknowledgment_requested(&self) -> &'a [u8] {
        self.field(14)
    }

    /// ISA15
    pub fn usage_indicator(&self) -> &'a [u8] {
        self.field(15)
    }
}

fn field(interchange: &[u8], number: usize) -> &[u8] {
    &interchange[SEPARATORS[number - 1] + 1..SEPARATORS[number]]
}

/// ISA11, where ISA12 is five digits that make it a delimiter.
fn repetition_separator(interchange: &[u8]) -> Option<u8> {
    let version = decimal(field(interchange, REPETITION_SEPARATOR + 1), 5)?;
    let separator = field(interchange, REPETITION_SEPARATOR)[0];
    (version >= FIRST_WITH_REPETITION && separator != NO_REPETITION).then_some(separator)
}

fn check_separators(interchange: &[u8]) -> Result<(), Refusal> {
    let separator = interchange[SEPARATORS[0]];
    let in_place = |&place: &usize| interchange[place] == separator;
    if !interchange.starts_with(b"ISA") || !SEPARATORS.iter().all(in_place) {
        return Err(Refusal::IsaSeparators);
    }
    Ok(())
}
