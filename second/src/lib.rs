//! Answers one X12 interchange holding 1 to 16 functional groups of transaction
//! set 990 with a functional acknowledgment (997) for each group or a refusal
//! number, and its envelope with an interchange acknowledgment (TA1) or a
//! refusal number.
//!
//! Written from document 01 and the change requests alone, to be compared with
//! the proved program.

pub mod caller;
pub mod delimiters;
pub mod element_notes;
pub mod envelope;
pub mod exchange;
pub mod generator;
pub mod group_header;
pub mod interchange_acknowledgment;
pub mod isa;
pub mod refusal;
pub mod response;
pub mod segment;
pub mod segment_notes;
pub mod tables;
pub mod transaction_set;
pub mod values;
pub mod verdicts;

use caller::CallerNumbers;
use delimiters::Delimiters;
use envelope::{Envelope, Group};
use group_header::GroupHeader;
use interchange_acknowledgment::acknowledge_interchange;
use isa::Isa;
use refusal::Refusal;
use transaction_set::TransactionSet;
use verdicts::GroupVerdict;

/// What one interchange is answered with.
#[derive(Debug, Clone, PartialEq, Eq)]
pub enum Answer {
    /// The response interchange, which fits the buffer.
    Acknowledged(Vec<u8>),
    Refused(Refusal),
}

impl Answer {
    /// 0, or the number of the refusal.
    pub fn number(&self) -> u8 {
        match self {
            Answer::Acknowledged(_) => 0,
            Answer::Refused(refusal) => refusal.number(),
        }
    }

    /// The length of the response; for refusal 14 the length needed.
    pub fn length(&self) -> usize {
        match self {
            Answer::Acknowledged(response) => response.len(),
            Answer::Refused(Refusal::BufferTooShort { needed }) => *needed,
            Answer::Refused(_) => 0,
        }
    }

    /// What is written at the start of the buffer: nothing for a refusal.
    pub fn response(&self) -> &[u8] {
        match self {
            Answer::Acknowledged(response) => response,
            Answer::Refused(_) => &[],
        }
    }
}

/// An entry answers an interchange as of the caller's date (CCYYMMDD) and time
/// (HHMM) under the caller's control number, into a buffer of so many bytes.
pub type Entry = fn(&[u8], usize, u32, u32, u32) -> Answer;

/// The entry that answers each group with a 997.
pub fn answer(
    interchange: &[u8],
    buffer_length: usize,
    date: u32,
    time: u32,
    control: u32,
) -> Answer {
    fitting(acknowledge(interchange, date, time, control), buffer_length)
}

/// The entry that answers the envelope with a TA1.
pub fn answer_interchange(
    interchange: &[u8],
    buffer_length: usize,
    date: u32,
    time: u32,
    control: u32,
) -> Answer {
    let response = acknowledge_interchange(interchange, date, time, control);
    fitting(response, buffer_length)
}

/// Refusal 14, which each entry gives last.
fn fitting(response: Result<Vec<u8>, Refusal>, buffer_length: usize) -> Answer {
    match response {
        Ok(response) if response.len() > buffer_length => {
            let needed = response.len();
            Answer::Refused(Refusal::BufferTooShort { needed })
        }
        Ok(response) => Answer::Acknowledged(response),
        Err(refusal) => Answer::Refused(refusal),
    }
}

fn acknowledge(interchange: &[u8], date: u32, time: u32, control: u32) -> Result<Vec<u8>, Refusal> {
    let caller = CallerNumbers::check(date, time, control)?;
    let isa = Isa::read(interchange)?;
    let envelope = Envelope::read(interchange, &isa)?;
    let mut verdicts = Vec::new();
    for group in &envelope.groups {
        verdicts.push(judge(group, &isa.delimiters)?);
    }
    Ok(response::write(&caller, &isa, &verdicts))
}

/// Refusals 9 to 13 are all checked on this group before the next one is
/// looked at.
fn judge<'a>(group: &'a Group<'a>, delimiters: &Delimiters) -> Result<GroupVerdict<'a>, Refusal> {
    let header = GroupHeader::read(&group.gs, delimiters)?;
    let sets = TransactionSet::cut(&group.inside, delimiters)?;
    Ok(GroupVerdict::reach(
        header,
        &sets,
        group.ge.as_ref(),
        delimiters,
    ))
}
