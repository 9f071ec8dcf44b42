//! Groups put together at random from likely ids and likely elements.

use super::draft::{segment, Draft, DraftSegment, Edition};
use super::prng::Prng;
use crate::delimiters::Delimiters;

const IDS: [&str; 16] = [
    "SE", "SE", "SE", "B1", "B1", "B1", "L11", "L11", "K1", "K1", "ST", "ST", "N1", "ZZZ", "b1", "",
];

const ELEMENTS: [&str; 21] = [
    "", "", "", "A", "AB", "ABCD", "ABCDE", "X", "CN", "D", "Q", "R", "20240315", "20241315",
    "0001", "0002", "2", "3", "4", "-3", "990",
];

pub fn soup(prng: &mut Prng, delimiters: Delimiters) -> Draft {
    let edition = Edition::any(prng);
    let mut draft = Draft::without_sets(prng, delimiters, edition);
    let segments = prng.between(0, 12);
    let mut group = vec![likely_header(prng)];
    let mut open = true;
    for _ in 0..segments {
        let next = likely_segment(prng, open);
        open = next[0] != b"SE";
        group.push(next);
    }
    draft.append_to_group(group);
    if prng.percent(50) {
        draft.recount();
    }
    draft
}

/// Behind SE nearly always ST, since all else lies outside every set.
fn likely_segment(prng: &mut Prng, open: bool) -> DraftSegment {
    let id = if open || prng.percent(3) {
        *prng.pick(&IDS)
    } else {
        "ST"
    };
    match id {
        "ST" => likely_header(prng),
        "SE" => likely_trailer(prng),
        other => likely_elements(prng, other),
    }
}

fn likely_header(prng: &mut Prng) -> DraftSegment {
    let identifier = *prng.pick(&["990", "990", "990", "990", "990", "990", "204"]);
    let control = *prng.pick(&["0001", "0002", "0003", "0004", "000000001", "00001"]);
    let mut header = segment(&["ST", identifier, control], []);
    for _ in 0..*prng.pick(&[0, 0, 0, 0, 1, 2]) {
        header.push(prng.pick(&ELEMENTS).as_bytes().to_vec());
    }
    header
}

fn likely_trailer(prng: &mut Prng) -> DraftSegment {
    let count = *prng.pick(&["2", "3", "4", "003", ""]);
    let control = *prng.pick(&["0001", "0002", "0003", "0004", "000000001", ""]);
    segment(&["SE", count, control], [])
}

fn likely_elements(prng: &mut Prng, id: &str) -> DraftSegment {
    let mut segment = segment(&[id], []);
    for _ in 0..prng.between(0, 5) {
        segment.push(prng.pick(&ELEMENTS).as_bytes().to_vec());
    }
    segment
}
