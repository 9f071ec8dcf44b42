//! Interchanges of several groups, each of which is made as a draft of its own.

use super::draft::{segment, set_element, Draft};
use super::prng::Prng;
use super::refusals;
use crate::delimiters::Delimiters;
use crate::envelope::MOST_GROUPS;

/// How many groups: mostly few, and often as many as there may be.
pub fn count(prng: &mut Prng) -> usize {
    match prng.below(20) {
        0 => 1,
        1..8 => 2,
        8..11 => 3,
        11..13 => 4,
        13..17 => prng.between(5, MOST_GROUPS - 2),
        17 => MOST_GROUPS - 1,
        _ => MOST_GROUPS,
    }
}

/// A clean group that is small, so that many are quick.
pub fn small(prng: &mut Prng, delimiters: Delimiters) -> Draft {
    let sets = *prng.pick(&[1, 1, 1, 2]);
    Draft::of_clean_sets(prng, delimiters, sets)
}

/// One interchange of the groups of several, in the envelope of the first.
pub fn joined(prng: &mut Prng, parts: Vec<Draft>) -> Draft {
    let mut parts = parts.into_iter();
    let mut draft = parts.next().expect("at least one group");
    for mut part in parts {
        close(&mut draft);
        let iea = draft.segments.pop();
        part.segments.pop();
        draft.segments.append(&mut part.segments);
        draft.segments.extend(iea);
    }
    draft.count_groups(prng);
    draft
}

/// Adds GE to the last group where it is missing.
fn close(draft: &mut Draft) {
    let iea = draft.segments.len() - 1;
    if draft.segments[iea - 1][0] == b"GE" {
        return;
    }
    let gs = last_gs(draft);
    let headers = draft.indices_of("ST");
    let sets = headers.iter().filter(|&&st| st > gs).count();
    let control = draft.segments[gs].get(6).cloned();
    let ge = segment(&["GE", &sets.to_string()], control);
    draft.segments.insert(iea, ge);
}

/// Removes the last GE, which may be missing.
pub fn leave_open(draft: &mut Draft) {
    let last = draft.segments.len() - 2;
    if draft.segments[last][0] == b"GE" {
        draft.segments.remove(last);
    }
}

fn last_gs(draft: &Draft) -> usize {
    draft.indices_of("GS").pop().expect("a group")
}

/// Gives some of the other groups the partners or the control number of the
/// first.
pub fn liken(prng: &mut Prng, parts: &mut [Draft]) {
    let Some((first, others)) = parts.split_first_mut() else {
        return;
    };
    let gs = &first.segments[0];
    for other in others {
        if prng.percent(40) {
            for partner in [2, 3] {
                set_element(&mut other.segments[0], partner, gs[partner].clone());
            }
        }
        if prng.percent(30) {
            set_element(&mut other.segments[0], 6, gs[6].clone());
            for ge in other.indices_of("GE") {
                set_element(&mut other.segments[ge], 2, gs[6].clone());
            }
        }
    }
}

/// Several groups that are refused with this number, which is from 7 to 13.
pub fn refused(prng: &mut Prng, delimiters: Delimiters, number: u8) -> Draft {
    if number == 7 && prng.percent(20) {
        let parts = (0..=MOST_GROUPS).map(|_| small(prng, delimiters)).collect();
        return joined(prng, parts);
    }
    let count = count(prng).max(2);
    let refused = prng.below(count);
    let parts = (0..count)
        .map(|index| {
            let mut part = small(prng, delimiters);
            if number > 8 && index == refused {
                refuse(prng, &mut part, number);
            } else if (number < 9 || index > refused) && prng.percent(40) {
                let number = prng.byte_between(9, 13);
                refuse(prng, &mut part, number);
            }
            part
        })
        .collect();
    let mut draft = joined(prng, parts);
    match number {
        7 => {
            if prng.percent(40) {
                refusals::provoke_in_draft(prng, &mut draft, 8);
            }
            spoil_order(prng, &mut draft);
        }
        8 if prng.percent(60) => refusals::spoil_iea_group_count(prng, &mut draft),
        8 => refusals::provoke_in_draft(prng, &mut draft, 8),
        _ => {}
    }
    draft
}

/// Makes a group be refused with a number from 9 to 13, at times with a reason
/// for a higher one, too.
fn refuse(prng: &mut Prng, part: &mut Draft, number: u8) {
    if prng.percent(30) {
        let higher = prng.byte_between(number, 13);
        if higher > number {
            refusals::provoke_in_draft(prng, part, higher);
        }
    }
    refusals::provoke_in_draft(prng, part, number);
}

/// Makes the order of two groups or more be refused with 7.
fn spoil_order(prng: &mut Prng, draft: &mut Draft) {
    if prng.percent(80) {
        close(draft);
    }
    let starts = draft.indices_of("GS");
    // GS of a group that has another one before it, with its GE.
    let gs = *prng.pick(&starts[1..]);
    let iea = draft.segments.len() - 1;
    let ge = segment(&["GE", "1", "1"], []);
    let stray = segment(&[*prng.pick(&["", "", "TA1", "B1", "SE", "ST", "gs"])], []);
    let envelope = segment(&[*prng.pick(&["ISA", "IEA"])], []);
    match prng.below(12) {
        0..3 => {
            draft.segments.remove(gs - 1);
        }
        3 => draft.segments.insert(gs, ge),
        4..6 => draft.segments.insert(gs, stray),
        6 => {
            // Without it a last group of GS alone would be gone.
            close(draft);
            draft.segments.remove(gs);
        }
        7 => {
            let anywhere = prng.between(0, iea);
            draft.segments.insert(*prng.pick(&[gs, anywhere]), envelope);
        }
        8 => draft.segments.insert(gs, segment(&["GS"], [])),
        9 => {
            close(draft);
            let iea = draft.segments.len() - 1;
            draft.segments.insert(iea, ge);
        }
        _ => {
            close(draft);
            let iea = draft.segments.len() - 1;
            draft.segments.insert(iea, stray);
        }
    }
}
