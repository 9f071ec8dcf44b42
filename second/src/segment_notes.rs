//! The notes on the segments of one transaction set (AK3).

use crate::delimiters::Delimiters;
use crate::element_notes::{element_notes, ElementNote};
use crate::segment::Segment;
use crate::tables::{in_directory, Edition, Entry, Need};
use crate::transaction_set::TransactionSet;

/// AK304, each with its code.
#[derive(Debug, Clone, Copy, PartialEq, Eq, PartialOrd, Ord)]
pub enum SegmentError {
    Unrecognized = 1,
    MandatoryMissing = 3,
    ExceedsMaximumUse = 5,
    NotInSet = 6,
    NotInSequence = 7,
    HasElementErrors = 8,
}

#[derive(Debug, Clone, PartialEq, Eq)]
pub struct SegmentNote<'a> {
    /// The segment's id as echoed in AK301.
    pub id: &'a [u8],
    pub position: usize,
    /// Ascending, at least one.
    pub errors: Vec<SegmentError>,
    pub elements: Vec<ElementNote<'a>>,
}

/// What AK301 says for an id that is none.
const NO_ID: &[u8] = b"ZZZ";

pub fn segment_notes<'a>(
    set: &TransactionSet<'a>,
    edition: Edition,
    delimiters: &Delimiters,
) -> Vec<SegmentNote<'a>> {
    let mut walk = Walk {
        edition,
        delimiters,
        place: 0,
        uses: 0,
        notes: Vec::new(),
    };
    for (position, segment) in set.positions() {
        walk.take(position, segment);
    }
    if set.trailer().is_none() {
        walk.move_to(edition.len() - 1, set.segment_count() + 1);
    }
    walk.notes
}

/// A walk through an edition's table along the segments of a set.
struct Walk<'a, 'd> {
    edition: Edition,
    delimiters: &'d Delimiters,
    /// The present place in the table. ST, which comes first, makes its first use.
    place: usize,
    uses: usize,
    notes: Vec<SegmentNote<'a>>,
}

impl<'a> Walk<'a, '_> {
    fn take(&mut self, position: usize, segment: &Segment<'a>) {
        if !in_directory(segment.id) {
            let id = echoed_id(segment.id);
            self.note(id, position, vec![SegmentError::Unrecognized], Vec::new());
            return;
        }
        let is_its_entry = |entry: &Entry| entry.layout.id == segment.id;
        let Some(place) = self.edition.iter().position(is_its_entry) else {
            let errors = vec![SegmentError::NotInSet];
            self.note(segment.id, position, errors, Vec::new());
            return;
        };
        let sequence_error = self.advance(place, position);
        let layout = self.edition[place].layout;
        let elements = element_notes(segment, layout, self.delimiters);
        let element_error = (!elements.is_empty()).then_some(SegmentError::HasElementErrors);
        let errors: Vec<SegmentError> = sequence_error.into_iter().chain(element_error).collect();
        if !errors.is_empty() {
            self.note(segment.id, position, errors, elements);
        }
    }

    /// Moves to `place` as far as the table allows it.
    fn advance(&mut self, place: usize, position: usize) -> Option<SegmentError> {
        if place < self.place {
            return Some(SegmentError::NotInSequence);
        }
        if place > self.place {
            self.move_to(place, position);
            return None;
        }
        self.uses += 1;
        let maximum = self.edition[place].maximum_use;
        (self.uses > maximum).then_some(SegmentError::ExceedsMaximumUse)
    }

    /// Moves on to a later place, noting the mandatory entries passed over.
    fn move_to(&mut self, place: usize, position: usize) {
        for entry in &self.edition[self.place + 1..place] {
            if entry.need == Need::Mandatory {
                let errors = vec![SegmentError::MandatoryMissing];
                self.note(entry.layout.id, position, errors, Vec::new());
            }
        }
        self.place = place;
        self.uses = 1;
    }

    fn note(
        &mut self,
        id: &'a [u8],
        position: usize,
        errors: Vec<SegmentError>,
        elements: Vec<ElementNote<'a>>,
    ) {
        self.notes.push(SegmentNote {
            id,
            position,
            errors,
            elements,
        });
    }
}

/// An id of 2 or 3 uppercase letters or digits as it came, any other as `ZZZ`.
fn echoed_id(id: &[u8]) -> &[u8] {
    let uppercase_or_digit = |byte: &u8| byte.is_ascii_uppercase() || byte.is_ascii_digit();
    if matches!(id.len(), 2 | 3) && id.iter().all(uppercase_or_digit) {
        id
    } else {
        NO_ID
    }
}
