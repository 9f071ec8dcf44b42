//! Interchanges of remarkable size: around the limits, and of many sets or segments.

use super::content;
use super::control_numbers;
use super::draft::{clean_set, segment, set_element, Draft, DraftSegment, Edition};
use super::groups;
use super::prng::Prng;
use crate::delimiters::Delimiters;
use crate::isa::{ISA_LENGTH, LONGEST_INTERCHANGE};

/// Cut off or filled up to a length near 106.
pub fn near_shortest(prng: &mut Prng, draft: &mut Draft) -> Vec<u8> {
    let length = prng.between(ISA_LENGTH - 3, ISA_LENGTH + 6);
    if prng.percent(50) {
        draft.segments.clear();
    }
    let mut bytes = draft.render();
    bytes.resize(length, draft.delimiters.terminator);
    bytes
}

/// Filled up with one long B102 to a length near 65,536.
pub fn near_longest(prng: &mut Prng, delimiters: Delimiters) -> Draft {
    let length = prng.between(LONGEST_INTERCHANGE - 2, LONGEST_INTERCHANGE + 2);
    let edition = Edition::Of006010;
    let mut draft = Draft::without_sets(prng, delimiters, edition);
    for number in 1..=*prng.pick(&[1, 10, 500]) {
        draft.append_to_group(clean_set(prng, &delimiters, edition, number));
    }
    draft.recount();
    let b1 = *prng.pick(&draft.indices_of("B1"));
    let fields = draft.segments[b1].len().max(3);
    draft.segments[b1].resize(fields, Vec::new());
    let missing = length.saturating_sub(draft.render().len());
    draft.segments[b1][2].extend(std::iter::repeat_n(b'X', missing));
    draft
}

/// Hundreds to thousands of sets, up to as many as fit; some control numbers
/// come again, most of them far apart.
pub fn many_sets(prng: &mut Prng, delimiters: Delimiters) -> Draft {
    let edition = Edition::any(prng);
    let mut draft = Draft::without_sets(prng, delimiters, edition);
    let shape = *prng.pick(&[
        TinySet::HeaderOnly,
        TinySet::HeaderOnly,
        TinySet::WithTrailer,
        TinySet::Clean,
    ]);
    let longest = *prng.pick(&[4, 4, 4, 5, 9]);
    let most = room(&draft) / rendered_length(&tiny_set(shape, &[b'0'; 9][..longest]));
    let count = match prng.below(3) {
        0 => most - prng.below(20),
        _ => prng.between(300, most),
    };
    let mut numbers = different_numbers(longest, count);
    for _ in 0..prng.below(12) {
        let (one, other) = (place(prng, count), place(prng, count));
        numbers[one.max(other)] = numbers[one.min(other)].clone();
    }
    append_sets(&mut draft, shape, &numbers);
    draft
}

/// So many different control numbers of 4, 5 or 9 bytes, the longer ones of
/// one bucket.
fn different_numbers(length: usize, count: usize) -> Vec<Vec<u8>> {
    match length {
        9 => control_numbers::of_one_bucket("AAAA", count),
        5 => control_numbers::of_one_bucket("", count),
        _ => (0..count).map(|n| format!("{n:04}").into_bytes()).collect(),
    }
}

/// Anywhere, or at either end.
fn place(prng: &mut Prng, count: usize) -> usize {
    match prng.below(3) {
        0 => prng.below(10),
        1 => count - 1 - prng.below(count.min(500)),
        _ => prng.below(count),
    }
}

/// Sets whose control numbers are a long way to look up, and these again.
pub fn deep_numbers(prng: &mut Prng, delimiters: Delimiters) -> Draft {
    let edition = Edition::any(prng);
    let mut draft = Draft::without_sets(prng, delimiters, edition);
    let shape = *prng.pick(&[TinySet::HeaderOnly, TinySet::WithTrailer, TinySet::Clean]);
    let mut numbers = control_numbers::way_through_a_tree(prng, &delimiters);
    for _ in 0..prng.below(20) {
        let again = prng.pick(&numbers).clone();
        numbers.push(again);
    }
    append_sets(&mut draft, shape, &numbers);
    draft
}

/// Several groups of up to thousands of sets, together up to as many as fit.
/// The groups have the same control numbers, in another order or in part.
pub fn large_groups(prng: &mut Prng, delimiters: Delimiters) -> Draft {
    let groups = *prng.pick(&[2, 2, 3, 4, 16]);
    let shape = *prng.pick(&[TinySet::HeaderOnly, TinySet::WithTrailer, TinySet::Clean]);
    let length = *prng.pick(&[4, 4, 5, 9]);
    let mut parts: Vec<Draft> = (0..groups)
        .map(|_| {
            let edition = Edition::any(prng);
            Draft::without_sets(prng, delimiters, edition)
        })
        .collect();
    let longest_part = parts.iter().map(|part| part.render().len()).max();
    let room = LONGEST_INTERCHANGE / groups - longest_part.unwrap_or(0) - "00000".len();
    let most = room / rendered_length(&tiny_set(shape, &[b'0'; 9][..length]));
    let numbers = if prng.percent(20) {
        control_numbers::way_through_a_tree(prng, &delimiters)
    } else {
        different_numbers(length, most)
    };
    for part in &mut parts {
        let start = prng.below(numbers.len());
        let sets = prng.between(1, most.min(numbers.len()));
        let mut own: Vec<Vec<u8>> = numbers
            .iter()
            .cycle()
            .skip(start)
            .take(sets)
            .cloned()
            .collect();
        for _ in 0..prng.below(3) {
            let again = prng.pick(&own).clone();
            let last = own.len() - 1;
            own[last] = again;
        }
        append_sets(part, shape, &own);
    }
    groups::joined(prng, parts)
}

/// The bytes that the segments of a draft may still take, with a longer GE01.
fn room(draft: &Draft) -> usize {
    LONGEST_INTERCHANGE - draft.render().len() - "00000".len()
}

fn rendered_length(segments: &[DraftSegment]) -> usize {
    let separated =
        |segment: &DraftSegment| segment.iter().map(|part| part.len() + 1).sum::<usize>();
    segments.iter().map(separated).sum()
}

fn append_sets(draft: &mut Draft, shape: TinySet, numbers: &[Vec<u8>]) {
    let sets = numbers.iter().flat_map(|number| tiny_set(shape, number));
    draft.append_to_group(sets.collect());
    draft.recount();
}

#[derive(Clone, Copy)]
enum TinySet {
    HeaderOnly,
    WithTrailer,
    Clean,
}

fn tiny_set(shape: TinySet, control: &[u8]) -> Vec<DraftSegment> {
    let header = segment(&["ST", "990"], [control.to_vec()]);
    // Only the width of the count matters here: it is put right with all others.
    let trailer = segment(&["SE", "3"], [control.to_vec()]);
    match shape {
        TinySet::HeaderOnly => vec![header],
        TinySet::WithTrailer => vec![header, trailer],
        TinySet::Clean => vec![header, segment(&["B1", "AB"], []), trailer],
    }
}

/// One set of thousands of segments, up to as many as fit, each of which is noted.
pub fn many_notes(prng: &mut Prng, delimiters: Delimiters) -> Draft {
    let mut draft = Draft::without_sets(prng, delimiters, Edition::Of006010);
    let mut set = tiny_set(TinySet::Clean, b"0001");
    let stray = segment(&[*prng.pick(&["", "N1", "K1", "b1"])], []);
    let room = room(&draft) - rendered_length(&set) - "00000".len();
    let most = room / rendered_length(std::slice::from_ref(&stray));
    let count = match prng.below(4) {
        0 => most - prng.below(20),
        1 => prng.between(8_000, most),
        _ => prng.between(1_000, 8_000),
    };
    set.splice(2..2, std::iter::repeat_n(stray, count));
    draft.append_to_group(set);
    draft.recount();
    if prng.percent(20) {
        let se = draft.indices_of("SE")[0];
        set_element(&mut draft.segments[se], 1, (count + 2).to_string());
    }
    draft
}

/// One set of hundreds of segments, up to as many as fit, each with a value
/// that is shown.
pub fn many_echoes(prng: &mut Prng, delimiters: Delimiters) -> Draft {
    let mut draft = Draft::without_sets(prng, delimiters, Edition::Of004010);
    let mut set = tiny_set(TinySet::Clean, b"0001");
    let length = *prng.pick(&[31, 98, 99, 100, 150]);
    let shown = segment(&["K1"], [content::text(prng, &delimiters, length)]);
    let room = room(&draft) - rendered_length(&set) - "00000".len();
    let most = room / rendered_length(std::slice::from_ref(&shown));
    let count = prng.between(100, most);
    set.splice(2..2, std::iter::repeat_n(shown, count));
    draft.append_to_group(set);
    draft.recount();
    draft
}
