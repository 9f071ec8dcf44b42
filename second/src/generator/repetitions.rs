//! Interchanges in which ISA11 separates repetitions, or nearly does, and
//! elements and fields that hold it.

use super::content;
use super::draft::{segment, Draft, DraftSegment};
use super::prng::Prng;
use crate::delimiters::Delimiters;
use crate::values::decimal;

/// Where ISA11 and ISA12 stand among the fields of a draft.
pub const ISA11: usize = 10;
pub const ISA12: usize = 11;

/// ISA12 by which ISA11 is a delimiter unless it is `U`.
const REPEATING: [&str; 9] = [
    "00402", "00402", "00402", "00403", "00501", "00601", "10000", "10401", "99999",
];

/// ISA12 by which ISA11 is text, though most look much like the others.
const NOT_REPEATING: [&str; 16] = [
    "00400", "00399", "00200", "00000", "0040 ", " 0402", "0402 ", "  402", "402  ", "+0402",
    "0040A", "A0402", "0402A", "00A02", "ABCDE", "     ",
];

/// Lengths and places on both sides of the limits of the tables and of the 99
/// bytes that AK4 shows.
const LENGTHS: [usize; 7] = [9, 10, 30, 31, 81, 120, 150];
const PLACES: [usize; 8] = [1, 2, 9, 30, 31, 99, 100, 150];

/// The places of GS, those of any text twice.
const PLACES_OF_GS: [usize; 12] = [1, 2, 2, 3, 3, 4, 5, 6, 7, 7, 8, 8];

/// Whether ISA12 makes ISA11 a delimiter.
pub fn is_repeating(isa12: &[u8]) -> bool {
    decimal(isa12, 5) >= Some(402)
}

/// ISA11 and ISA12 of these delimiters.
pub fn fields(prng: &mut Prng, delimiters: &Delimiters) -> [Vec<u8>; 2] {
    if let Some(separator) = delimiters.repetition {
        return [vec![separator], repeating(prng)];
    }
    if prng.percent(20) {
        return [b"U".to_vec(), repeating(prng)];
    }
    let isa11 = content::text(prng, delimiters, 1);
    let isa12 = content::text(prng, delimiters, 5);
    if prng.percent(20) || is_repeating(&isa12) {
        return [isa11, b"00401".to_vec()];
    }
    [isa11, isa12]
}

fn repeating(prng: &mut Prng) -> Vec<u8> {
    prng.pick(&REPEATING).as_bytes().to_vec()
}

/// Makes a byte other than `U` a delimiter, be it legal or not.
pub fn declare(prng: &mut Prng, draft: &mut Draft, separator: u8) {
    draft.isa[ISA11] = vec![separator];
    draft.isa[ISA12] = repeating(prng);
}

/// A byte of every kind for ISA11, a legal delimiter in most cases.
pub fn isa11(prng: &mut Prng, delimiters: &Delimiters) -> u8 {
    match prng.below(100) {
        0..45 => b'^',
        45..57 => b'-',
        57..63 => b'U',
        63..66 => b'u',
        66..69 => prng.byte_between(b'A', b'Z'),
        69..71 => content::digit(prng),
        71..73 => b' ',
        73..85 => *prng.pick(&[0, b'\n', 0x1E, 0xFF]),
        85..88 => delimiters.element,
        88..91 => delimiters.component,
        91..94 => delimiters.terminator,
        _ => prng.byte_between(0, 255),
    }
}

/// Makes this byte ISA11 under an ISA12 of every kind, and puts it into some
/// elements and fields.
pub fn put(prng: &mut Prng, draft: &mut Draft, isa11: u8) {
    draft.isa[ISA11] = vec![isa11];
    draft.isa[ISA12] = isa12(prng, isa11);
    for _ in 0..*prng.pick(&[0, 1, 1, 1, 1, 2, 2, 3, 4]) {
        put_somewhere(prng, draft, isa11);
    }
}

fn isa12(prng: &mut Prng, isa11: u8) -> Vec<u8> {
    match prng.below(100) {
        0..65 => repeating(prng),
        65..78 => b"00401".to_vec(),
        78..93 => prng.pick(&NOT_REPEATING).as_bytes().to_vec(),
        _ => {
            let mut isa12 = repeating(prng);
            isa12[prng.below(5)] = isa11;
            isa12
        }
    }
}

fn put_somewhere(prng: &mut Prng, draft: &mut Draft, byte: u8) {
    match prng.below(100) {
        0..66 => put_into_set(prng, draft, byte),
        66..72 => put_into_frame(prng, draft, byte, "GS", &PLACES_OF_GS),
        72..77 => put_into_frame(prng, draft, byte, "ST", &[1, 2, 2, 2]),
        77..81 => put_into_frame(prng, draft, byte, "GE", &[1, 2, 3]),
        81..84 => put_into_frame(prng, draft, byte, "IEA", &[1, 2]),
        84..92 => put_into_isa(prng, draft, byte),
        92..95 => put_into_id(prng, draft, byte),
        _ => insert_unchecked(prng, draft, byte),
    }
}

/// Into an element of a segment from ST to SE, known or not.
fn put_into_set(prng: &mut Prng, draft: &mut Draft, byte: u8) {
    let Some(index) = pick_in_sets(prng, draft) else {
        return;
    };
    // ST01 and ST02 stay, or there would be no set to judge.
    let (first, last) = match draft.segments[index][0].as_slice() {
        b"ST" => (3, 3),
        b"B1" => (1, 4),
        b"L11" => (1, 3),
        _ => (1, 2),
    };
    let beyond = prng.percent(12);
    let place = if beyond {
        last + 1
    } else {
        prng.between(first, last)
    };
    let delimiters = draft.delimiters;
    let element = element_at(&mut draft.segments[index], place);
    repeat(prng, &delimiters, element, byte);
}

fn pick_in_sets(prng: &mut Prng, draft: &Draft) -> Option<usize> {
    let in_sets =
        draft.indices_where(|segment| !matches!(segment[0].as_slice(), b"GS" | b"GE" | b"IEA"));
    (!in_sets.is_empty()).then(|| *prng.pick(&in_sets))
}

fn element_at(segment: &mut DraftSegment, place: usize) -> &mut Vec<u8> {
    let fields = segment.len().max(place + 1);
    segment.resize(fields, Vec::new());
    &mut segment[place]
}

/// Makes an element hold the byte: alone, at an end or within, once or more
/// often, or beside a byte that is not valid.
fn repeat(prng: &mut Prng, delimiters: &Delimiters, element: &mut Vec<u8>, byte: u8) {
    match prng.below(16) {
        0..3 => *element = vec![byte; *prng.pick(&[1, 1, 1, 2, 3])],
        3..5 => element.insert(0, byte),
        5..8 => element.push(byte),
        8 | 9 => insert(prng, element, byte),
        10 | 11 => {
            let once = element.clone();
            element.push(byte);
            element.extend(once);
        }
        12 | 13 => {
            insert(prng, element, byte);
            let bad = content::invalid_byte(prng, delimiters);
            insert(prng, element, bad);
        }
        14 => {
            let length = *prng.pick(&LENGTHS);
            *element = content::text(prng, delimiters, length);
            let place = length.min(*prng.pick(&PLACES));
            element[place - 1] = byte;
        }
        _ => replace(prng, element, byte),
    }
}

fn insert(prng: &mut Prng, element: &mut Vec<u8>, byte: u8) {
    let at = prng.below(element.len() + 1);
    element.insert(at, byte);
}

/// Nothing where the element is empty.
fn replace(prng: &mut Prng, element: &mut [u8], byte: u8) {
    if !element.is_empty() {
        element[prng.below(element.len())] = byte;
    }
}

/// Into one of these places of a header or a trailer, of any group.
fn put_into_frame(prng: &mut Prng, draft: &mut Draft, byte: u8, id: &str, places: &[usize]) {
    let frame = draft.indices_of(id);
    if frame.is_empty() {
        return;
    }
    let element = element_at(&mut draft.segments[*prng.pick(&frame)], *prng.pick(places));
    match prng.below(3) {
        0 => element.push(byte),
        1 => {
            element.pop();
            element.push(byte);
        }
        _ => replace(prng, element, byte),
    }
}

fn put_into_isa(prng: &mut Prng, draft: &mut Draft, byte: u8) {
    let field = prng.below(draft.isa.len());
    if field != ISA11 {
        replace(prng, &mut draft.isa[field], byte);
    }
}

fn put_into_id(prng: &mut Prng, draft: &mut Draft, byte: u8) {
    if let Some(index) = pick_in_sets(prng, draft) {
        let id = &mut draft.segments[index][0];
        if prng.percent(50) {
            id.push(byte);
        } else {
            insert(prng, id, byte);
        }
    }
}

/// Adds a segment that is not known, or is in one of the editions only.
fn insert_unchecked(prng: &mut Prng, draft: &mut Draft, byte: u8) {
    if let Some(index) = pick_in_sets(prng, draft) {
        let id = *prng.pick(&["N1", "ZZ", "b1", "K1", "L11"]);
        let repeated = vec![b'A', byte, b'B'];
        let unchecked = segment(&[id], [repeated, vec![byte]]);
        draft.segments.insert(index + 1, unchecked);
    }
}
