//! Damage that is answered with one given refusal number.
//!
//! Each acts on the caller's numbers, on the draft or on the rendered bytes,
//! so that two can be brought about at once and the lower number be given.

use super::content;
use super::days;
use super::draft::{segment, set_element, Draft};
use super::prng::Prng;
use super::repetitions;
use crate::isa::{ISA_LENGTH, LONGEST_INTERCHANGE, SEPARATORS};

/// The part of the damage for refusal `number` that is done to the draft.
pub fn provoke_in_draft(prng: &mut Prng, draft: &mut Draft, number: u8) {
    match number {
        1 => spoil_caller_numbers(prng, draft),
        4 => spoil_delimiters(prng, draft),
        5 => spoil_isa_fields(prng, draft),
        7 => spoil_envelope_order(prng, draft),
        8 => spoil_iea(prng, draft),
        9 => spoil_gs(prng, draft),
        10 => set_element(&mut draft.segments[0], 1, "FA"),
        11 => put_outside_every_set(prng, draft),
        12 => remove_sets(prng, draft),
        13 => spoil_set_header(prng, draft),
        _ => {}
    }
}

/// The part of the damage for refusal `number` that is done to the bytes.
pub fn provoke_in_bytes(prng: &mut Prng, draft: &Draft, bytes: &mut Vec<u8>, number: u8) {
    match number {
        2 => spoil_size(prng, bytes),
        3 => spoil_separators(prng, bytes),
        6 => spoil_last_byte(prng, draft.delimiters.terminator, bytes),
        _ => {}
    }
}

fn spoil_caller_numbers(prng: &mut Prng, draft: &mut Draft) {
    match prng.below(4) {
        0 => {
            let bad = [
                0,
                100,
                1232,
                20240100,
                20240132,
                20240001,
                20241301,
                20241428,
                20249928,
                99991232,
                99999999,
                100000101,
                120240315,
                u32::MAX,
            ];
            draft.date = *prng.pick(&bad);
        }
        1 => draft.date = days::past_month_end(prng),
        2 => draft.time = *prng.pick(&[60, 1260, 2360, 2400, 9999, 10000, 100_000, u32::MAX]),
        _ => draft.control = *prng.pick(&[0, 1_000_000_000, u32::MAX]),
    }
}

fn spoil_size(prng: &mut Prng, bytes: &mut Vec<u8>) {
    if prng.percent(95) {
        let length = *prng.pick(&[0, 1, 3, 50, 104, 105]);
        bytes.truncate(length);
    } else {
        let length = LONGEST_INTERCHANGE + *prng.pick(&[1, 2, 1000]);
        let last = bytes.last().copied().unwrap_or_default();
        bytes.resize(length, last);
    }
}

fn spoil_separators(prng: &mut Prng, bytes: &mut [u8]) {
    let places = if prng.percent(30) {
        [0, 1, 2].as_slice()
    } else {
        // A change of the first would change what the others are held against.
        &SEPARATORS[1..]
    };
    let place = *prng.pick(places);
    bytes[place] = bytes[place].wrapping_add(prng.byte_between(1, 255));
}

fn spoil_delimiters(prng: &mut Prng, draft: &mut Draft) {
    let delimiters = &mut draft.delimiters;
    let no_delimiter = match prng.below(4) {
        0 => content::digit(prng),
        1 => b' ',
        2 => prng.byte_between(b'a', b'z'),
        // `U` for ISA11 would be text.
        _ => prng.byte_between(b'A', b'T'),
    };
    match prng.below(8) {
        0 => delimiters.component = delimiters.element,
        1 => delimiters.terminator = delimiters.element,
        2 => delimiters.component = delimiters.terminator,
        3 => delimiters.element = no_delimiter,
        4 => delimiters.component = no_delimiter,
        5 => delimiters.terminator = no_delimiter,
        6 => repetitions::declare(prng, draft, no_delimiter),
        _ => {
            let others = [
                delimiters.element,
                delimiters.component,
                delimiters.terminator,
            ];
            let equal = *prng.pick(&others);
            repetitions::declare(prng, draft, equal);
        }
    }
}

fn spoil_isa_fields(prng: &mut Prng, draft: &mut Draft) {
    let delimiters = draft.delimiters;
    let (control, usage) = (12, 14);
    match prng.below(4) {
        0 => {
            let at = prng.below(9);
            draft.isa[control][at] = *prng.pick(b"A -+");
        }
        1 => draft.isa[usage] = vec![*prng.pick(b"ptiXA 0")],
        _ => {
            let bad = match prng.below(3) {
                0 => delimiters.element,
                1 => delimiters.terminator,
                _ => content::invalid_byte(prng, &delimiters),
            };
            let field = *prng.pick(&fields_of_text(draft));
            let at = prng.below(draft.isa[field].len());
            draft.isa[field][at] = bad;
        }
    }
}

/// The fields that any bad byte spoils. It could make ISA11 a good delimiter
/// where ISA12 lets it be one, or a text by standing in ISA12.
fn fields_of_text(draft: &Draft) -> Vec<usize> {
    let both = [repetitions::ISA11, repetitions::ISA12];
    let left_out = repetitions::is_repeating(&draft.isa[repetitions::ISA12]);
    (0..draft.isa.len())
        .filter(|field| !left_out || !both.contains(field))
        .collect()
}

fn spoil_last_byte(prng: &mut Prng, terminator: u8, bytes: &mut Vec<u8>) {
    let other = if terminator == b'\n' { b'\r' } else { b'\n' };
    match prng.below(3) {
        0 => bytes.push(other),
        1 => bytes.push(terminator.wrapping_add(prng.byte_between(1, 255))),
        _ if bytes.len() > ISA_LENGTH => {
            let last = bytes.len() - 1;
            bytes[last] = other;
        }
        _ => bytes.push(other),
    }
}

fn spoil_envelope_order(prng: &mut Prng, draft: &mut Draft) {
    let group_end = draft.group_end();
    let segments = &mut draft.segments;
    let last = segments.len() - 1;
    match prng.below(10) {
        0 => segments.clear(),
        1 => {
            segments.remove(0);
        }
        2 => segments[0][0] = prng.pick(&["gs", "GX", "", "GS "]).as_bytes().to_vec(),
        3 => {
            segments.pop();
        }
        4 => segments[last][0] = prng.pick(&["iea", "IE", "", "IEAA"]).as_bytes().to_vec(),
        5 => segments.push(segment(&[*prng.pick(&["", "TA1", "GE", "IEA"])], [])),
        6 => segments.insert(0, segment(&[*prng.pick(&["", "TA1", "ISA"])], [])),
        7 => {
            let id = *prng.pick(&["ISA", "IEA"]);
            segments.insert(prng.between(1, last), segment(&[id], []));
        }
        8 => {
            // Behind GE it would begin a second group.
            segments.insert(prng.between(1, group_end), segment(&["GS"], []));
        }
        _ => {
            let at = prng.between(1, last);
            let ge = segment(&["GE", "1", "1"], []);
            segments.splice(at..at, [ge.clone(), ge]);
        }
    }
}

/// One of the three tests of IEA fails, or two, or all.
fn spoil_iea(prng: &mut Prng, draft: &mut Draft) {
    match prng.below(16) {
        0..4 => spoil_iea_group_count(prng, draft),
        4..9 => spoil_iea_control_number(prng, draft),
        9..11 => spoil_iea_elements(prng, draft),
        11 | 12 => {
            spoil_iea_group_count(prng, draft);
            spoil_iea_control_number(prng, draft);
        }
        13 => {
            draft.set_iea(1, "");
            draft.set_iea(2, "");
        }
        14 => {
            spoil_iea_control_number(prng, draft);
            spoil_iea_elements(prng, draft);
        }
        _ => {
            spoil_iea_group_count(prng, draft);
            spoil_iea_control_number(prng, draft);
            spoil_iea_elements(prng, draft);
        }
    }
}

/// An IEA01 that looks like the number of groups, or has its value.
pub fn spoil_iea_group_count(prng: &mut Prng, draft: &mut Draft) {
    let groups = draft.groups();
    let bad = match prng.below(22) {
        0 => String::new(),
        1..4 => format!("{groups:06}"),
        4 => "0".to_string(),
        5 => "00000".to_string(),
        6 => "A".to_string(),
        7 => format!("{groups}0"),
        8 => format!("1{groups}"),
        9 => (groups + 256).to_string(),
        10 => (groups + 65_536).to_string(),
        11 => (groups + (1 << 32)).to_string(),
        12 => format!("{groups:010}"),
        13 => format!("-{groups}"),
        14 => format!("+{groups}"),
        15 => format!("{groups} "),
        16 => format!(" {groups}"),
        17 if groups > 1 => "1".to_string(),
        18 if groups > 9 => format!("{groups:X}"),
        19 => (groups - 1).to_string(),
        20 => format!("{:05}", groups - 1),
        _ => (groups + 1).to_string(),
    };
    draft.set_iea(1, bad);
}

fn spoil_iea_control_number(prng: &mut Prng, draft: &mut Draft) {
    if prng.percent(20) {
        start_with_zeros(prng, draft);
    }
    let right = draft.isa[12].clone();
    let at = *prng.pick(&[0, 0, 1, 4, 7, 8, 8]);
    let mut control = right.clone();
    match prng.below(8) {
        0 => control.clear(),
        1 => control.truncate(at),
        2 => control.push(*prng.pick(b"0 ")),
        3 => control.insert(0, *prng.pick(b"0 ")),
        4 => {
            let zeros = right.iter().take_while(|&&digit| digit == b'0').count();
            control.drain(..zeros.max(1));
        }
        _ => control[at] = other_digit(prng, control[at]),
    }
    draft.set_iea(2, control);
}

/// Gives the interchange a control number with zeros before its value.
fn start_with_zeros(prng: &mut Prng, draft: &mut Draft) {
    let zeros = prng.between(1, 8);
    draft.isa[12][..zeros].fill(b'0');
    let control = draft.isa[12].clone();
    draft.set_iea(2, control);
}

fn other_digit(prng: &mut Prng, digit: u8) -> u8 {
    b'0' + (digit - b'0' + prng.byte_between(1, 9)) % 10
}

fn spoil_iea_elements(prng: &mut Prng, draft: &mut Draft) {
    let Some(iea) = draft.segments.last_mut() else {
        return;
    };
    match prng.below(4) {
        0 => iea.truncate(1),
        1 => iea.truncate(2),
        2 => iea.push(prng.pick(&["", "", "1"]).as_bytes().to_vec()),
        _ => iea.extend([Vec::new(), Vec::new()]),
    }
}

fn spoil_gs(prng: &mut Prng, draft: &mut Draft) {
    let delimiters = draft.delimiters;
    let gs = &mut draft.segments[0];
    match prng.below(12) {
        0 => gs.truncate(prng.between(1, 8)),
        1 => gs.push(prng.pick(&["", "X"]).as_bytes().to_vec()),
        2 => set_element(gs, 1, *prng.pick(&["", "G", "GFF", "gf", "G ", "G-"])),
        3 => set_element(gs, 2, *prng.pick(&["", "A", "ABCDEFGHIJKLMNOP"])),
        4 => set_element(gs, 3, *prng.pick(&["", "A", "ABCDEFGHIJKLMNOP"])),
        5 => {
            let bad = [
                "", "240315", "20240015", "20241315", "20241428", "20249928", "20240300",
                "20240332", "2024031A",
            ];
            set_element(gs, 4, *prng.pick(&bad));
        }
        6 => {
            let bad = [
                "",
                "2400",
                "1260",
                "12345",
                "123460",
                "123",
                "123456789",
                "12:0",
            ];
            set_element(gs, 5, *prng.pick(&bad));
        }
        7 => set_element(gs, 6, *prng.pick(&["", "1234567890", "-1", "4 2", "A"])),
        8 => set_element(gs, 7, *prng.pick(&["", "XXX"])),
        9 => set_element(gs, 8, *prng.pick(&["", "006010ABCDEFG"])),
        10 => set_element(gs, 4, days::written(days::past_month_end(prng))),
        _ => {
            let place = prng.between(1, gs.len() - 1);
            let at = prng.below(gs[place].len() + 1);
            gs[place].insert(at, content::invalid_byte(prng, &delimiters));
        }
    }
}

fn put_outside_every_set(prng: &mut Prng, draft: &mut Draft) {
    let places: Vec<usize> = std::iter::once(0).chain(draft.indices_of("SE")).collect();
    let stray = segment(&[*prng.pick(&["", "B1", "SE", "L11", "N1", "TA1"])], []);
    draft.segments.insert(prng.pick(&places) + 1, stray);
}

fn remove_sets(prng: &mut Prng, draft: &mut Draft) {
    let mut end = draft.group_end();
    if prng.percent(50) {
        end = draft.segments.len() - 1;
    }
    draft.segments.drain(1..end);
}

fn spoil_set_header(prng: &mut Prng, draft: &mut Draft) {
    let header = *prng.pick(&draft.indices_of("ST"));
    let delimiters = draft.delimiters;
    let st = &mut draft.segments[header];
    match prng.below(5) {
        0 => set_element(st, 1, *prng.pick(&["", "99", "9900", "99A", "-99", "99 "])),
        1 => set_element(st, 2, *prng.pick(&["", "1", "001", "0123456789"])),
        2 => st.truncate(prng.between(1, 2)),
        _ => {
            let at = prng.below(st[2].len() + 1);
            st[2].insert(at, content::invalid_byte(prng, &delimiters));
        }
    }
}
