//! The verdicts on the sets of one group (AK5) and on the group (AK9).

use crate::delimiters::Delimiters;
use crate::group_header::GroupHeader;
use crate::segment::Segment;
use crate::segment_notes::{segment_notes, SegmentNote};
use crate::tables::{edition, Edition};
use crate::transaction_set::TransactionSet;
use crate::values::decimal;
use std::collections::HashSet;

/// AK502 to AK505, each with its code.
#[derive(Debug, Clone, Copy, PartialEq, Eq, PartialOrd, Ord)]
pub enum SetError {
    NotSupported = 1,
    TrailerMissing = 2,
    ControlNumberMismatch = 3,
    SegmentCountMismatch = 4,
    SegmentsInError = 5,
    ControlNumberNotUnique = 23,
}

/// AK905 to AK909, each with its code.
#[derive(Debug, Clone, Copy, PartialEq, Eq, PartialOrd, Ord)]
pub enum GroupError {
    NotSupported = 1,
    VersionNotSupported = 2,
    TrailerMissing = 3,
    ControlNumberMismatch = 4,
    SetCountMismatch = 5,
}

#[derive(Debug, Clone, Copy, PartialEq, Eq)]
pub enum Acknowledgment {
    Accepted,
    PartiallyAccepted,
    Rejected,
}

#[derive(Debug, Clone, PartialEq, Eq)]
pub struct SetVerdict<'a> {
    /// ST01
    pub identifier: &'a [u8],
    /// ST02
    pub control_number: &'a [u8],
    pub notes: Vec<SegmentNote<'a>>,
    /// Ascending; none for an accepted set.
    pub errors: Vec<SetError>,
}

#[derive(Debug, Clone, PartialEq, Eq)]
pub struct GroupVerdict<'a> {
    pub header: GroupHeader<'a>,
    pub sets: Vec<SetVerdict<'a>>,
    pub acknowledgment: Acknowledgment,
    /// AK902: what GE01 declares.
    pub sets_included: u64,
    /// AK904
    pub sets_accepted: usize,
    /// Ascending.
    pub errors: Vec<GroupError>,
}

impl SetVerdict<'_> {
    pub fn acknowledgment(&self) -> Acknowledgment {
        if self.errors.is_empty() {
            Acknowledgment::Accepted
        } else {
            Acknowledgment::Rejected
        }
    }
}

impl<'a> GroupVerdict<'a> {
    pub fn reach(
        header: GroupHeader<'a>,
        sets: &[TransactionSet<'a>],
        ge: Option<&Segment<'a>>,
        delimiters: &Delimiters,
    ) -> Self {
        let edition = edition(header.version);
        let supported_edition = edition.filter(|_| header.is_supported());
        let errors = group_errors(&header, edition, ge, sets.len());
        let sets = set_verdicts(sets, supported_edition, delimiters);
        let good_sets = sets.iter().filter(|set| set.errors.is_empty()).count();
        let acknowledgment = if !errors.is_empty() || good_sets == 0 {
            Acknowledgment::Rejected
        } else if good_sets == sets.len() {
            Acknowledgment::Accepted
        } else {
            Acknowledgment::PartiallyAccepted
        };
        GroupVerdict {
            header,
            acknowledgment,
            sets_included: ge.and_then(declared_sets).unwrap_or(sets.len() as u64),
            sets_accepted: match acknowledgment {
                Acknowledgment::Rejected => 0,
                _ => good_sets,
            },
            sets,
            errors,
        }
    }
}

fn group_errors(
    header: &GroupHeader,
    edition: Option<Edition>,
    ge: Option<&Segment>,
    set_count: usize,
) -> Vec<GroupError> {
    let mut errors = Vec::new();
    if !header.is_supported() {
        errors.push(GroupError::NotSupported);
    }
    if edition.is_none() {
        errors.push(GroupError::VersionNotSupported);
    }
    let Some(ge) = ge else {
        errors.push(GroupError::TrailerMissing);
        return errors;
    };
    if ge.element(2) != header.control_number {
        errors.push(GroupError::ControlNumberMismatch);
    }
    if declared_sets(ge) != Some(set_count as u64) {
        errors.push(GroupError::SetCountMismatch);
    }
    errors
}

/// The value of GE01, if it is 1 to 6 digits.
fn declared_sets(ge: &Segment) -> Option<u64> {
    decimal(ge.element(1), 6)
}

fn set_verdicts<'a>(
    sets: &[TransactionSet<'a>],
    supported_edition: Option<Edition>,
    delimiters: &Delimiters,
) -> Vec<SetVerdict<'a>> {
    let mut earlier = HashSet::new();
    let mut verdicts = Vec::with_capacity(sets.len());
    for set in sets {
        let edition = supported_edition.filter(|_| set.identifier() == b"990");
        let notes = edition.map(|edition| segment_notes(set, edition, delimiters));
        let unique = earlier.insert(set.control_number());
        verdicts.push(SetVerdict {
            identifier: set.identifier(),
            control_number: set.control_number(),
            errors: set_errors(set, notes.as_deref(), unique),
            notes: notes.unwrap_or_default(),
        });
    }
    verdicts
}

/// The set's codes. `notes` is nothing when the set is not supported.
fn set_errors(set: &TransactionSet, notes: Option<&[SegmentNote]>, unique: bool) -> Vec<SetError> {
    let mut errors = Vec::new();
    if notes.is_none() {
        errors.push(SetError::NotSupported);
    }
    match set.trailer() {
        None => errors.push(SetError::TrailerMissing),
        Some(trailer) => errors.extend(trailer_errors(set, trailer)),
    }
    if notes.is_some_and(|notes| !notes.is_empty()) {
        errors.push(SetError::SegmentsInError);
    }
    if !unique {
        errors.push(SetError::ControlNumberNotUnique);
    }
    errors
}

fn trailer_errors(set: &TransactionSet, trailer: &Segment) -> Vec<SetError> {
    let mut errors = Vec::new();
    if trailer.element(2) != set.control_number() {
        errors.push(SetError::ControlNumberMismatch);
    }
    if decimal(trailer.element(1), 10) != Some(set.segment_count() as u64) {
        errors.push(SetError::SegmentCountMismatch);
    }
    errors
}
