//! The functional group header (refusals 9 and 10).

use crate::delimiters::Delimiters;
use crate::refusal::Refusal;
use crate::segment::Segment;
use crate::values::{decimal, is_date, is_time};
use std::ops::RangeInclusive;

/// GS as far as the answer needs it.
#[derive(Debug, Clone, PartialEq, Eq)]
pub struct GroupHeader<'a> {
    /// GS01
    pub functional_identifier: &'a [u8],
    /// GS02
    pub sender: &'a [u8],
    /// GS03
    pub receiver: &'a [u8],
    /// GS06
    pub control_number: &'a [u8],
    /// GS08
    pub version: &'a [u8],
}

impl<'a> GroupHeader<'a> {
    pub fn read(gs: &Segment<'a>, delimiters: &Delimiters) -> Result<Self, Refusal> {
        if !keeps_gs_rule(gs, delimiters) {
            return Err(Refusal::Gs);
        }
        if gs.element(1) == b"FA" {
            return Err(Refusal::AcknowledgmentGroup);
        }
        Ok(GroupHeader {
            functional_identifier: gs.element(1),
            sender: gs.element(2),
            receiver: gs.element(3),
            control_number: gs.element(6),
            version: gs.element(8),
        })
    }

    pub fn is_supported(&self) -> bool {
        matches!(self.functional_identifier, b"GF" | b"SM")
    }
}

fn keeps_gs_rule(gs: &Segment, delimiters: &Delimiters) -> bool {
    let valid = |place: usize, lengths: RangeInclusive<usize>| {
        let element = gs.element(place);
        lengths.contains(&element.len()) && delimiters.all_valid(element)
    };
    gs.elements.len() == 8
        && is_functional_identifier(gs.element(1))
        && valid(2, 2..=15)
        && valid(3, 2..=15)
        && is_date(gs.element(4))
        && is_time(gs.element(5))
        && decimal(gs.element(6), 9).is_some()
        && valid(7, 1..=2)
        && valid(8, 1..=12)
}

fn is_functional_identifier(bytes: &[u8]) -> bool {
    let uppercase_or_digit = |byte: &u8| byte.is_ascii_uppercase() || byte.is_ascii_digit();
    bytes.len() == 2 && bytes.iter().all(uppercase_or_digit)
}
