//! Damage to sets, their segments, elements and bytes.

use super::content;
use super::control_numbers;
use super::days;
use super::draft::{clean_b1, clean_k1, clean_l11, segment, set_element, Draft, DraftSegment};
use super::prng::Prng;
use crate::delimiters::Delimiters;

/// Lengths on both sides of the limits of the tables.
const LENGTHS: [usize; 16] = [1, 2, 3, 4, 5, 7, 8, 9, 10, 11, 30, 31, 35, 36, 80, 81];

const BAD_DATES: [&str; 9] = [
    "20240100", "20240132", "20240001", "20241301", "20241428", "20249928", "2024010A", "        ",
    "2024-1-1",
];

const STRANGE_IDS: [&str; 12] = [
    "N1", "REF", "b1", "B1X", "B11", "B", "", "ABCD", "B1\0", "L1", "L 1", "st",
];

/// One to four damages; then the counts are put right, so that the damage
/// itself shows, and in some the trailer is damaged after that.
pub fn damage_sets(prng: &mut Prng, draft: &mut Draft) {
    for _ in 0..*prng.pick(&[1, 1, 1, 2, 3, 4]) {
        damage_structure_or_element(prng, draft);
    }
    draft.recount();
    if prng.percent(40) {
        damage_trailer(prng, draft);
    }
}

fn damage_structure_or_element(prng: &mut Prng, draft: &mut Draft) {
    match prng.below(15) {
        0 => remove_segment(prng, draft),
        1 => repeat_segment(prng, draft),
        2 => swap_segments(prng, draft),
        3 => insert_strange_segment(prng, draft),
        4 => insert_directory_segment(prng, draft),
        5 => remove_trailer(prng, draft),
        6 => repeat_control_number(prng, draft),
        7 => nearly_repeat_control_number(prng, draft),
        8 => change_identifier(prng, draft),
        9 => change_element_count(prng, draft),
        _ => damage_element(prng, draft),
    }
}

/// The segments of the group other than ST and SE.
fn body(draft: &Draft) -> Vec<usize> {
    draft.indices_where(|segment| {
        !matches!(
            segment[0].as_slice(),
            b"GS" | b"ST" | b"SE" | b"GE" | b"IEA"
        )
    })
}

/// Every segment of the group.
fn group(draft: &Draft) -> Vec<usize> {
    (1..draft.group_end()).collect()
}

fn pick_index(prng: &mut Prng, indices: &[usize]) -> Option<usize> {
    (!indices.is_empty()).then(|| *prng.pick(indices))
}

/// A place behind some ST and before the end of its set.
fn place_in_set(prng: &mut Prng, draft: &Draft) -> Option<usize> {
    let before_end = |&index: &usize| draft.segments[index][0] != b"SE";
    let group: Vec<usize> = group(draft).into_iter().filter(before_end).collect();
    pick_index(prng, &group).map(|index| index + 1)
}

fn remove_segment(prng: &mut Prng, draft: &mut Draft) {
    if let Some(index) = pick_index(prng, &body(draft)) {
        draft.segments.remove(index);
    }
}

fn repeat_segment(prng: &mut Prng, draft: &mut Draft) {
    if let Some(index) = pick_index(prng, &body(draft)) {
        let again = draft.segments[index].clone();
        let times = *prng.pick(&[1, 1, 2, 10, 11]);
        draft
            .segments
            .splice(index..index, std::iter::repeat_n(again, times));
    }
}

fn swap_segments(prng: &mut Prng, draft: &mut Draft) {
    let body = body(draft);
    if let (Some(one), Some(other)) = (pick_index(prng, &body), pick_index(prng, &body)) {
        draft.segments.swap(one, other);
    }
}

fn insert_strange_segment(prng: &mut Prng, draft: &mut Draft) {
    let mut strange = segment(&[*prng.pick(&STRANGE_IDS)], []);
    if prng.percent(10) {
        strange[0] = vec![b'B', draft.delimiters.component];
    }
    if prng.percent(50) {
        strange.push(b"X".to_vec());
    }
    insert_in_set(prng, draft, strange);
}

fn insert_directory_segment(prng: &mut Prng, draft: &mut Draft) {
    let delimiters = draft.delimiters;
    let known = match prng.below(3) {
        0 => clean_b1(prng, &delimiters),
        1 => clean_l11(prng, &delimiters),
        _ => clean_k1(prng, &delimiters),
    };
    insert_in_set(prng, draft, known);
}

fn insert_in_set(prng: &mut Prng, draft: &mut Draft, segment: DraftSegment) {
    if let Some(index) = place_in_set(prng, draft) {
        draft.segments.insert(index, segment);
    }
}

fn remove_trailer(prng: &mut Prng, draft: &mut Draft) {
    if let Some(index) = pick_index(prng, &draft.indices_of("SE")) {
        draft.segments.remove(index);
    }
}

/// Gives one set the control number of another.
fn repeat_control_number(prng: &mut Prng, draft: &mut Draft) {
    let headers = draft.indices_of("ST");
    let (Some(from), Some(to)) = (pick_index(prng, &headers), pick_index(prng, &headers)) else {
        return;
    };
    let control = draft.segments[from][2].clone();
    let trailer_too = prng.percent(80);
    set_control_number(draft, to, control, trailer_too);
}

/// Gives two sets control numbers that begin alike.
fn nearly_repeat_control_number(prng: &mut Prng, draft: &mut Draft) {
    let headers = draft.indices_of("ST");
    let controls = control_numbers::nearly_equal(prng, &draft.delimiters);
    for control in controls {
        if let Some(header) = pick_index(prng, &headers) {
            set_control_number(draft, header, control, true);
        }
    }
}

fn set_control_number(draft: &mut Draft, header: usize, control: Vec<u8>, trailer_too: bool) {
    set_element(&mut draft.segments[header], 2, control.clone());
    let trailer = draft.indices_of("SE").into_iter().find(|&se| se > header);
    if let Some(trailer) = trailer.filter(|_| trailer_too) {
        set_element(&mut draft.segments[trailer], 2, control);
    }
}

fn change_identifier(prng: &mut Prng, draft: &mut Draft) {
    if let Some(index) = pick_index(prng, &draft.indices_of("ST")) {
        let identifier = *prng.pick(&["990", "204", "997", "000", "991"]);
        set_element(&mut draft.segments[index], 1, identifier);
    }
}

fn change_element_count(prng: &mut Prng, draft: &mut Draft) {
    let Some(index) = pick_index(prng, &group(draft)) else {
        return;
    };
    let segment = &mut draft.segments[index];
    // ST01 and ST02 stay, or there would be no set to judge.
    let fewest = if segment[0] == b"ST" { 3 } else { 1 };
    if prng.percent(50) {
        let length = prng.between(fewest, segment.len().max(fewest));
        segment.truncate(length);
    } else {
        let more = *prng.pick(&[1, 1, 2, 5]);
        let filled = prng.percent(50);
        let element = if filled { b"X".to_vec() } else { Vec::new() };
        segment.extend(std::iter::repeat_n(element, more));
    }
}

fn damage_element(prng: &mut Prng, draft: &mut Draft) {
    let Some(index) = pick_index(prng, &group(draft)) else {
        return;
    };
    let delimiters = draft.delimiters;
    let segment = &mut draft.segments[index];
    let first = if segment[0] == b"ST" { 3 } else { 1 };
    if segment.len() <= first {
        return;
    }
    let place = prng.between(first, segment.len() - 1);
    let id = segment[0].clone();
    let element = &mut segment[place];
    match (id.as_slice(), place) {
        (b"B1", 3) if prng.percent(50) => *element = prng.pick(&BAD_DATES).as_bytes().to_vec(),
        (b"B1", 3) if prng.percent(50) => *element = days::written(days::near_month_end(prng)),
        (b"B1", 4) if prng.percent(60) => *element = vec![*prng.pick(b"BCERQ@ad0 ")],
        _ => damage_bytes_of_element(prng, &delimiters, element),
    }
}

fn damage_bytes_of_element(prng: &mut Prng, delimiters: &Delimiters, element: &mut Vec<u8>) {
    match prng.below(5) {
        0 => element.clear(),
        1 => {
            let length = *prng.pick(&LENGTHS);
            *element = content::text(prng, delimiters, length);
        }
        2 => element.push(content::valid_byte(prng, delimiters)),
        3 => {
            element.pop();
        }
        _ => {
            let at = prng.below(element.len() + 1);
            element.insert(at, content::invalid_byte(prng, delimiters));
        }
    }
}

/// Damage to SE01 and SE02.
fn damage_trailer(prng: &mut Prng, draft: &mut Draft) {
    let Some(index) = pick_index(prng, &draft.indices_of("SE")) else {
        return;
    };
    let trailer = &mut draft.segments[index];
    match prng.below(5) {
        0 => trailer.truncate(prng.between(1, 2)),
        1 => trailer.push(Vec::new()),
        2 => set_element(trailer, 2, *prng.pick(&["", "0001", "0002", "1", "00010"])),
        _ => {
            let count = trailer.get(1).map(|count| String::from_utf8_lossy(count));
            let count = near_count(prng, count.and_then(|count| count.parse().ok()));
            set_element(trailer, 1, count);
        }
    }
}

/// A SE01 that looks like the right count, or has its value.
fn near_count(prng: &mut Prng, right: Option<u64>) -> String {
    let right = right.unwrap_or_default();
    match prng.below(12) {
        0 => String::new(),
        1 => "-".to_string(),
        2 => format!("-{right}"),
        3 => format!("--{right}"),
        4 => format!("{right}-"),
        5 => format!("+{right}"),
        6 => format!("{right} "),
        7 => format!("0{right}"),
        8 => format!("{right:010}"),
        9 => format!("{right:011}"),
        10 => (right + (1 << 32)).to_string(),
        _ => (right + 1).to_string(),
    }
}
