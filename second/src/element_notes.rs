//! The notes on the elements of one segment (AK4).

use crate::delimiters::Delimiters;
use crate::segment::Segment;
use crate::tables::{ElementRow, ElementType, Need, Relation, SegmentLayout, SyntaxNote};
use crate::values::{all_digits, is_date, is_time};
use std::collections::BTreeSet;

/// AK403, each with its code.
#[derive(Debug, Clone, Copy, PartialEq, Eq, PartialOrd, Ord)]
pub enum ElementError {
    MandatoryMissing = 1,
    ConditionalMissing = 2,
    TooMany = 3,
    TooShort = 4,
    TooLong = 5,
    InvalidCharacter = 6,
    InvalidCode = 7,
    InvalidDate = 8,
    InvalidTime = 9,
    ExclusionViolated = 10,
    TooManyRepetitions = 12,
}

impl ElementError {
    /// Whether it speaks of a value that AK404 can show.
    fn has_value(self) -> bool {
        matches!(
            self,
            ElementError::TooShort
                | ElementError::TooLong
                | ElementError::InvalidCode
                | ElementError::InvalidDate
                | ElementError::InvalidTime
                | ElementError::ExclusionViolated
        )
    }
}

/// AK404 has no more bytes than these.
const LONGEST_ECHO: usize = 99;

#[derive(Debug, Clone, Copy, PartialEq, Eq)]
pub struct ElementNote<'a> {
    pub place: usize,
    /// Nothing for the place after the last of the table.
    pub reference: Option<u16>,
    pub error: ElementError,
    /// The value's first bytes as received; empty where none are shown.
    pub echo: &'a [u8],
}

/// All notes on `segment`, by place, then code.
pub fn element_notes<'a>(
    segment: &Segment<'a>,
    layout: &SegmentLayout,
    delimiters: &Delimiters,
) -> Vec<ElementNote<'a>> {
    // A set, since the same place and code are noted once.
    let mut found = BTreeSet::new();
    for (place, row) in (1..).zip(layout.elements) {
        let error = element_error(segment.element(place), row, delimiters);
        found.extend(error.map(|error| (place, error)));
    }
    let present = |place: usize| !segment.element(place).is_empty();
    for note in layout.syntax_notes {
        found.extend(syntax_errors(note, present));
    }
    if segment.elements.len() > layout.elements.len() {
        found.insert((layout.elements.len() + 1, ElementError::TooMany));
    }
    // A value with an invalid byte or a repetition is shown under no code.
    let is_withheld = |place| {
        found.contains(&(place, ElementError::InvalidCharacter))
            || found.contains(&(place, ElementError::TooManyRepetitions))
    };
    let is_shown = |place, error: ElementError| error.has_value() && !is_withheld(place);
    let note = |&(place, error)| ElementNote {
        place,
        reference: layout.elements.get(place - 1).map(|row| row.reference),
        error,
        echo: if is_shown(place, error) {
            cut(segment.element(place))
        } else {
            &[]
        },
    };
    found.iter().map(note).collect()
}

fn cut(value: &[u8]) -> &[u8] {
    &value[..value.len().min(LONGEST_ECHO)]
}

fn element_error(
    element: &[u8],
    row: &ElementRow,
    delimiters: &Delimiters,
) -> Option<ElementError> {
    if element.is_empty() {
        return (row.need == Need::Mandatory).then_some(ElementError::MandatoryMissing);
    }
    // No element of the tables repeats.
    if delimiters.repeats(element) {
        return Some(ElementError::TooManyRepetitions);
    }
    let counted = counted_bytes(element, row.element_type);
    let not_numeric = row.element_type == ElementType::N0 && !all_digits(counted);
    let unlisted = |codes: &[&[u8]]| !codes.contains(&element);
    if not_numeric || !delimiters.all_valid(element) {
        Some(ElementError::InvalidCharacter)
    } else if counted.len() < row.shortest {
        Some(ElementError::TooShort)
    } else if counted.len() > row.longest {
        Some(ElementError::TooLong)
    } else if row.code_list.is_some_and(unlisted) {
        Some(ElementError::InvalidCode)
    } else if row.element_type == ElementType::Dt && !is_date(element) {
        Some(ElementError::InvalidDate)
    } else if row.element_type == ElementType::Tm && !is_time(element) {
        Some(ElementError::InvalidTime)
    } else {
        None
    }
}

/// The bytes that make up an element's length: all, but for the minus of N0.
fn counted_bytes(element: &[u8], element_type: ElementType) -> &[u8] {
    match element_type {
        ElementType::N0 => element.strip_prefix(b"-").unwrap_or(element),
        _ => element,
    }
}

/// What one syntax note finds where `present` tells the filled places.
fn syntax_errors(note: &SyntaxNote, present: impl Fn(usize) -> bool) -> Vec<(usize, ElementError)> {
    let (filled, absent): (Vec<usize>, Vec<usize>) =
        note.places.iter().partition(|&&place| present(place));
    let first_present = present(note.places[0]);
    let missing = |place| (place, ElementError::ConditionalMissing);
    let excluded = |place| (place, ElementError::ExclusionViolated);
    match note.relation {
        Relation::PairedOrMultiple if !filled.is_empty() => {
            absent.into_iter().map(missing).collect()
        }
        Relation::Required if filled.is_empty() => vec![missing(note.places[0])],
        Relation::Exclusion => filled.into_iter().skip(1).map(excluded).collect(),
        Relation::Conditional if first_present => absent.into_iter().map(missing).collect(),
        Relation::ListConditional if first_present && filled.len() == 1 => {
            vec![missing(note.places[1])]
        }
        _ => Vec::new(),
    }
}

#[cfg(test)]
mod tests;
