//! The refusals, by their numbers.

#[derive(Debug, Clone, Copy, PartialEq, Eq)]
pub enum Refusal {
    CallerNumbers,
    InterchangeSize,
    IsaSeparators,
    Delimiters,
    IsaFields,
    LastByte,
    EnvelopeOrder,
    Iea,
    Gs,
    AcknowledgmentGroup,
    OutsideEverySet,
    NoSet,
    SetHeader,
    BufferTooShort { needed: usize },
    NoTa1Wanted,
}

impl Refusal {
    pub fn number(self) -> u8 {
        match self {
            Refusal::CallerNumbers => 1,
            Refusal::InterchangeSize => 2,
            Refusal::IsaSeparators => 3,
            Refusal::Delimiters => 4,
            Refusal::IsaFields => 5,
            Refusal::LastByte => 6,
            Refusal::EnvelopeOrder => 7,
            Refusal::Iea => 8,
            Refusal::Gs => 9,
            Refusal::AcknowledgmentGroup => 10,
            Refusal::OutsideEverySet => 11,
            Refusal::NoSet => 12,
            Refusal::SetHeader => 13,
            Refusal::BufferTooShort { .. } => 14,
            Refusal::NoTa1Wanted => 15,
        }
    }
}
