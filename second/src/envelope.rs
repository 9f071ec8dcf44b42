//! The envelope: the groups that it holds and the interchange control trailer
//! (refusals 6 to 8).

use crate::isa::{Isa, ISA_LENGTH};
use crate::refusal::Refusal;
use crate::segment::{cut_segments, Segment};
use crate::values::decimal;

/// An interchange has no more groups than these.
pub const MOST_GROUPS: usize = 16;

/// What is wrong with an envelope, in the order of checking.
#[derive(Debug, Clone, Copy, PartialEq, Eq)]
pub enum EnvelopeFault {
    LastByte,
    /// Between ISA and the end stand other segments than 1 to 16 groups and
    /// then IEA.
    Order,
    /// IEA has not exactly two elements.
    IeaElements,
    /// IEA02 differs from ISA13.
    IeaControlNumber,
    /// IEA01 is not 1 to 5 digits whose value is the number of groups.
    IeaGroupCount,
}

impl From<EnvelopeFault> for Refusal {
    fn from(fault: EnvelopeFault) -> Self {
        match fault {
            EnvelopeFault::LastByte => Refusal::LastByte,
            EnvelopeFault::Order => Refusal::EnvelopeOrder,
            EnvelopeFault::IeaElements
            | EnvelopeFault::IeaControlNumber
            | EnvelopeFault::IeaGroupCount => Refusal::Iea,
        }
    }
}

/// The segments from GS to GE.
pub struct Group<'a> {
    pub gs: Segment<'a>,
    /// What lies between GS and GE, or between GS and IEA if GE is missing.
    pub inside: Vec<Segment<'a>>,
    /// Missing at most in the last group.
    pub ge: Option<Segment<'a>>,
}

/// The groups of an interchange whose envelope is sound.
pub struct Envelope<'a> {
    pub groups: Vec<Group<'a>>,
}

impl<'a> Envelope<'a> {
    pub fn read(interchange: &'a [u8], isa: &Isa) -> Result<Self, EnvelopeFault> {
        if interchange.last() != Some(&isa.delimiters.terminator) {
            return Err(EnvelopeFault::LastByte);
        }
        let mut segments = cut_segments(&interchange[ISA_LENGTH..], &isa.delimiters);
        let iea = segments.pop().filter(|last| last.id == b"IEA");
        let (Some(groups), Some(iea)) = (cut_groups(segments), iea) else {
            return Err(EnvelopeFault::Order);
        };
        if !(1..=MOST_GROUPS).contains(&groups.len()) {
            return Err(EnvelopeFault::Order);
        }
        check_iea(&iea, isa, groups.len())?;
        Ok(Envelope { groups })
    }
}

/// Cuts the segments between ISA and IEA into groups. Nothing where a segment
/// lies outside every group, a group but the last has no GE, or ISA or IEA is
/// among them.
fn cut_groups(segments: Vec<Segment>) -> Option<Vec<Group>> {
    let mut groups = Vec::new();
    let mut open: Option<Group> = None;
    for segment in segments {
        match (segment.id, open.take()) {
            (b"GS", None) => {
                open = Some(Group {
                    gs: segment,
                    inside: Vec::new(),
                    ge: None,
                });
            }
            (b"GE", Some(group)) => groups.push(Group {
                ge: Some(segment),
                ..group
            }),
            (b"ISA" | b"GS" | b"GE" | b"IEA", _) | (_, None) => return None,
            (_, Some(mut group)) => {
                group.inside.push(segment);
                open = Some(group);
            }
        }
    }
    groups.extend(open);
    Some(groups)
}

fn check_iea(iea: &Segment, isa: &Isa, groups: usize) -> Result<(), EnvelopeFault> {
    if iea.elements.len() != 2 {
        return Err(EnvelopeFault::IeaElements);
    }
    if iea.element(2) != isa.control_number() {
        return Err(EnvelopeFault::IeaControlNumber);
    }
    if decimal(iea.element(1), 5) != Some(groups as u64) {
        return Err(EnvelopeFault::IeaGroupCount);
    }
    Ok(())
}
