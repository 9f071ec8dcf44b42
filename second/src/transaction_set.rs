//! Cutting the group into its transaction sets (refusals 11 to 13).

use crate::delimiters::Delimiters;
use crate::refusal::Refusal;
use crate::segment::Segment;
use crate::values::all_digits;

/// The segments from ST to SE, or to where the set breaks off without SE.
#[derive(Debug, Clone, Copy, PartialEq, Eq)]
pub struct TransactionSet<'a> {
    segments: &'a [Segment<'a>],
}

impl<'a> TransactionSet<'a> {
    pub fn cut(group: &'a [Segment<'a>], delimiters: &Delimiters) -> Result<Vec<Self>, Refusal> {
        let mut sets = Vec::new();
        let mut rest = group;
        while let Some(first) = rest.first() {
            if first.id != b"ST" {
                return Err(Refusal::OutsideEverySet);
            }
            let (segments, after) = rest.split_at(set_length(rest));
            sets.push(TransactionSet { segments });
            rest = after;
        }
        if sets.is_empty() {
            return Err(Refusal::NoSet);
        }
        if !sets.iter().all(|set| set.has_good_header(delimiters)) {
            return Err(Refusal::SetHeader);
        }
        Ok(sets)
    }

    fn has_good_header(&self, delimiters: &Delimiters) -> bool {
        let identifier = self.identifier();
        let control_number = self.control_number();
        identifier.len() == 3
            && all_digits(identifier)
            && (4..=9).contains(&control_number.len())
            && delimiters.all_valid(control_number)
    }

    /// ST01
    pub fn identifier(&self) -> &'a [u8] {
        self.segments[0].element(1)
    }

    /// ST02
    pub fn control_number(&self) -> &'a [u8] {
        self.segments[0].element(2)
    }

    pub fn trailer(&self) -> Option<&'a Segment<'a>> {
        self.segments.last().filter(|segment| segment.id == b"SE")
    }

    /// The count from ST to SE.
    pub fn segment_count(&self) -> usize {
        self.segments.len()
    }

    /// The segments from ST on, each with its position counted from 1.
    pub fn positions(&self) -> impl Iterator<Item = (usize, &'a Segment<'a>)> {
        (1..).zip(self.segments)
    }
}

/// How many of these segments, the first of which is ST, make up its set.
fn set_length(from_st: &[Segment]) -> usize {
    let ends_set = |segment: &Segment| segment.id == b"SE" || segment.id == b"ST";
    match from_st[1..].iter().position(ends_set) {
        Some(between) if from_st[between + 1].id == b"SE" => between + 2,
        Some(between) => between + 1,
        None => from_st.len(),
    }
}
