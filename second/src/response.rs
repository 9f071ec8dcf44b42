//! Writing the response interchange with a 997 for each group.

use crate::caller::CallerNumbers;
use crate::delimiters::Delimiters;
use crate::element_notes::ElementNote;
use crate::isa::Isa;
use crate::segment_notes::SegmentNote;
use crate::verdicts::{Acknowledgment, GroupVerdict, SetVerdict};

/// The response to the groups of an interchange, of which there is at least one.
pub fn write(caller: &CallerNumbers, isa: &Isa, groups: &[GroupVerdict]) -> Vec<u8> {
    let mut writer = Writer::new(isa.delimiters);
    let control = caller.control.to_string();
    let long_control = caller.long_control();
    let first = &groups[0].header;
    writer.isa(caller, isa);
    writer.segment(&[
        b"GS",
        b"FA",
        first.receiver,
        first.sender,
        caller.date.as_bytes(),
        caller.time.as_bytes(),
        control.as_bytes(),
        b"X",
        b"004010",
    ]);
    for (count, group) in (1..).zip(groups) {
        write_functional_acknowledgment(&mut writer, count, group);
    }
    writer.segment(&[b"GE", &number(groups.len()), control.as_bytes()]);
    writer.segment(&[b"IEA", b"1", long_control.as_bytes()]);
    writer.bytes
}

/// The 997 from ST to SE for the group that is this one when counted from 1.
fn write_functional_acknowledgment(writer: &mut Writer, count: usize, group: &GroupVerdict) {
    let set_control_number = format!("{count:04}").into_bytes();
    let before = writer.segments;
    writer.segment(&[b"ST", b"997", &set_control_number]);
    let header = &group.header;
    writer.segment(&[b"AK1", header.functional_identifier, header.control_number]);
    for set in &group.sets {
        write_set(writer, set);
    }
    write_ak9(writer, group);
    let with_trailer = writer.segments - before + 1;
    writer.segment(&[b"SE", &number(with_trailer), &set_control_number]);
}

/// AK2 to AK5 for one set.
fn write_set(writer: &mut Writer, set: &SetVerdict) {
    writer.segment(&[b"AK2", set.identifier, set.control_number]);
    for note in &set.notes {
        write_ak3(writer, note);
        for element in &note.elements {
            write_ak4(writer, element);
        }
    }
    let verdict = acknowledgment_code(set.acknowledgment());
    let codes = set.errors.iter().map(|&error| error as usize);
    writer.segment_with_codes(&[b"AK5", verdict], codes);
}

fn write_ak3(writer: &mut Writer, note: &SegmentNote) {
    let codes = note.errors.iter().map(|&error| error as usize);
    writer.segment_with_codes(&[b"AK3", note.id, &number(note.position), b""], codes);
}

fn write_ak4(writer: &mut Writer, note: &ElementNote) {
    let place = number(note.place);
    let reference = note.reference.map(number).unwrap_or_default();
    let code = number(note.error as usize);
    let mut parts: Vec<&[u8]> = vec![b"AK4", &place, &reference, &code];
    if !note.echo.is_empty() {
        parts.push(note.echo);
    }
    writer.segment(&parts);
}

fn write_ak9(writer: &mut Writer, verdict: &GroupVerdict) {
    let codes = verdict.errors.iter().map(|&error| error as usize);
    writer.segment_with_codes(
        &[
            b"AK9",
            acknowledgment_code(verdict.acknowledgment),
            &number(verdict.sets_included),
            &number(verdict.sets.len()),
            &number(verdict.sets_accepted),
        ],
        codes,
    );
}

fn acknowledgment_code(acknowledgment: Acknowledgment) -> &'static [u8] {
    match acknowledgment {
        Acknowledgment::Accepted => b"A",
        Acknowledgment::PartiallyAccepted => b"P",
        Acknowledgment::Rejected => b"R",
    }
}

/// A number of ours, without leading zeros.
fn number(value: impl ToString) -> Vec<u8> {
    value.to_string().into_bytes()
}

/// Collects segments and counts them.
pub(crate) struct Writer {
    delimiters: Delimiters,
    pub(crate) bytes: Vec<u8>,
    segments: usize,
}

impl Writer {
    pub(crate) fn new(delimiters: Delimiters) -> Self {
        Writer {
            delimiters,
            bytes: Vec::new(),
            segments: 0,
        }
    }

    /// Writes our ISA, with the parties turned round.
    pub(crate) fn isa(&mut self, caller: &CallerNumbers, isa: &Isa) {
        self.segment(&[
            b"ISA",
            b"00",
            b"          ",
            b"00",
            b"          ",
            isa.receiver_qualifier(),
            isa.receiver(),
            isa.sender_qualifier(),
            isa.sender(),
            caller.short_date().as_bytes(),
            caller.time.as_bytes(),
            b"U",
            b"00401",
            caller.long_control().as_bytes(),
            b"0",
            isa.usage_indicator(),
            &[isa.delimiters.component],
        ]);
    }

    /// Writes a segment given as its id and its elements.
    pub(crate) fn segment(&mut self, parts: &[&[u8]]) {
        self.bytes.extend(parts.join(&self.delimiters.element));
        self.bytes.push(self.delimiters.terminator);
        self.segments += 1;
    }

    /// Writes a segment that ends with a list of codes, possibly empty.
    fn segment_with_codes(&mut self, parts: &[&[u8]], codes: impl Iterator<Item = usize>) {
        let codes: Vec<Vec<u8>> = codes.map(number).collect();
        let mut all = parts.to_vec();
        all.extend(codes.iter().map(Vec::as_slice));
        self.segment(&all);
    }
}
