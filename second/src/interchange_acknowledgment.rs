//! The interchange acknowledgment: TA1, which tells whether the envelope is
//! sound (change request 3, refusal 15).

use crate::caller::CallerNumbers;
use crate::envelope::{Envelope, EnvelopeFault};
use crate::isa::Isa;
use crate::refusal::Refusal;
use crate::response::Writer;

/// The response to an interchange that asks for a TA1.
pub fn acknowledge_interchange(
    interchange: &[u8],
    date: u32,
    time: u32,
    control: u32,
) -> Result<Vec<u8>, Refusal> {
    let caller = CallerNumbers::check(date, time, control)?;
    let isa = Isa::read(interchange)?;
    if isa.acknowledgment_requested() != b"1" {
        return Err(Refusal::NoTa1Wanted);
    }
    let [verdict, note] = match Envelope::read(interchange, &isa) {
        Ok(_) => ["A", "000"],
        Err(fault) => ["R", note_code(fault)],
    };
    let mut writer = Writer::new(isa.delimiters);
    writer.isa(&caller, &isa);
    writer.segment(&[
        b"TA1",
        isa.control_number(),
        isa.date(),
        isa.time(),
        verdict.as_bytes(),
        note.as_bytes(),
    ]);
    writer.segment(&[b"IEA", b"0", caller.long_control().as_bytes()]);
    Ok(writer.bytes)
}

fn note_code(fault: EnvelopeFault) -> &'static str {
    match fault {
        EnvelopeFault::LastByte => "023",
        EnvelopeFault::Order | EnvelopeFault::IeaElements => "022",
        EnvelopeFault::IeaControlNumber => "001",
        EnvelopeFault::IeaGroupCount => "021",
    }
}
