//! Values that AK4 shows or withholds: around its cut, with bytes that are not
//! valid, with a minus, of spaces.

use super::content;
use super::days;
use super::draft::{Draft, DraftSegment};
use super::prng::Prng;
use crate::delimiters::Delimiters;

/// Too long for most elements, and on both sides of the cut at 99.
const LENGTHS: [usize; 16] = [
    31, 36, 81, 97, 98, 98, 99, 99, 100, 100, 101, 120, 150, 200, 400, 700,
];

/// Places, counted from 1, on both sides of the cut.
const PLACES: [usize; 9] = [1, 30, 98, 99, 100, 101, 120, 150, 300];

/// Fills one to six elements of the sets with such values.
pub fn put_values(prng: &mut Prng, draft: &mut Draft) {
    let group_end = draft.group_end();
    for _ in 0..prng.between(1, 6) {
        let index = prng.between(1, group_end - 1);
        put_value(prng, &draft.delimiters, &mut draft.segments[index]);
    }
}

fn put_value(prng: &mut Prng, delimiters: &Delimiters, segment: &mut DraftSegment) {
    // ST01 and ST02 stay, or there would be no set to judge.
    let (first, last) = match segment[0].as_slice() {
        b"ST" => (3, 3),
        b"B1" => (1, 4),
        b"L11" => (1, 3),
        _ => (1, 2),
    };
    let beyond = usize::from(prng.percent(5));
    let place = prng.between(first, last) + beyond;
    let value = match (segment[0].as_slice(), place) {
        (b"SE", 1) => number(prng),
        (b"B1", 3) if prng.percent(40) => days::written(days::past_month_end(prng)),
        (b"B1", 4) if prng.percent(40) => vec![*prng.pick(b"  QRa")],
        _ => value(prng, delimiters),
    };
    let fields = segment.len().max(place + 1);
    segment.resize(fields, Vec::new());
    segment[place] = value;
    if prng.percent(25) {
        spoil(prng, delimiters, &mut segment[place]);
    }
}

/// An SE01 with or without a minus, the minus alone, or what is no number.
fn number(prng: &mut Prng) -> Vec<u8> {
    let length = match prng.below(6) {
        0 => 0,
        1 => prng.between(1, 9),
        2 | 3 => prng.between(10, 12),
        _ => *prng.pick(&LENGTHS),
    };
    let mut number = content::digits(prng, length);
    if length == 0 || prng.percent(60) {
        number.insert(0, b'-');
    }
    if prng.percent(10) {
        number.push(*prng.pick(b"- .A"));
    }
    number
}

fn value(prng: &mut Prng, delimiters: &Delimiters) -> Vec<u8> {
    let short = prng.between(1, 9);
    let long = *prng.pick(&LENGTHS);
    match prng.below(8) {
        0 => vec![b' '; short],
        1 => vec![b' '; long],
        2 => content::text(prng, delimiters, short),
        3 => [content::text(prng, delimiters, long), vec![b' '; short]].concat(),
        _ => content::text(prng, delimiters, long),
    }
}

/// Makes one byte invalid, at a remarkable place if the value reaches there.
fn spoil(prng: &mut Prng, delimiters: &Delimiters, value: &mut [u8]) {
    let place = value.len().min(*prng.pick(&PLACES));
    value[place - 1] = content::invalid_byte(prng, delimiters);
}
