//! Each fault, planted and found.

use super::*;
use crate::outcome::of_second;
use crate::segments::{cut, joined, number, Segments};
use second::answer;
use std::collections::BTreeSet;

/// What is found in pairs of a library that is the second program but for
/// what `spoil` does.
fn faults_of(spoil: impl Fn(&mut Outcome)) -> BTreeSet<Fault> {
    let library = |case: &Case| {
        let mut outcome = of_second(answer, case, 0);
        spoil(&mut outcome);
        outcome
    };
    (0..2_000)
        .filter_map(|index| Pair::make(990, index))
        .filter_map(|pair| fault(&pair, &library(&pair.before), &library(&pair.after)))
        .collect()
}

/// Whether a fault is found where `edit` changes every response.
fn is_caught(fault: Fault, edit: impl Fn(&mut Segments)) {
    let found = faults_of(|outcome| {
        let (separator, terminator) = (outcome.response()[3], outcome.response()[105]);
        let mut segments = cut(outcome.response(), separator, terminator);
        edit(&mut segments);
        write(outcome, &joined(&segments, separator, terminator));
    });
    assert!(found.contains(&fault), "{found:?}");
}

fn write(outcome: &mut Outcome, response: &[u8]) {
    outcome.length = response.len();
    outcome.buffer_mut()[..response.len()].copy_from_slice(response);
}

fn find<'a>(segments: &'a mut Segments, id: &str) -> &'a mut Vec<Vec<u8>> {
    let found = segments
        .iter_mut()
        .find(|segment| segment[0] == id.as_bytes());
    found.expect(id)
}

/// How many sets a response rejects.
fn rejected(segments: &Segments) -> usize {
    let rejects = |segment: &&Vec<Vec<u8>>| segment[0] == b"AK5" && segment[1] == b"R";
    segments.iter().filter(rejects).count()
}

#[test]
fn the_second_program_has_no_fault() {
    assert_eq!(faults_of(|_| {}), BTreeSet::new());
}

#[test]
fn a_refusal_of_a_spoiled_set_is_caught() {
    let found = faults_of(|outcome| {
        if outcome.response().windows(3).any(|id| id == b"ZZZ") {
            outcome.number = 7;
        }
    });
    assert!(found.contains(&Fault::Refused));
}

#[test]
fn a_response_cut_short_is_caught() {
    let found = faults_of(|outcome| outcome.length -= 1);
    assert!(found.contains(&Fault::Not997));
}

#[test]
fn another_separator_is_caught() {
    let found = faults_of(|outcome| {
        let (separator, terminator) = (outcome.response()[3], outcome.response()[105]);
        if outcome.response().windows(3).any(|id| id == b"ZZZ") {
            let segments = cut(outcome.response(), separator, terminator);
            write(outcome, &joined(&segments, b'\x01', terminator));
        }
    });
    assert!(found.contains(&Fault::Delimiters));
}

#[test]
fn positions_carried_over_to_the_next_set_are_caught() {
    is_caught(Fault::OtherSet, |segments| {
        let mut notes = 0;
        for segment in segments {
            if segment[0] == b"AK3" {
                notes += 1;
                segment[2] = number(notes);
            }
        }
    });
}

#[test]
fn a_verdict_copied_onward_is_caught() {
    is_caught(Fault::VerdictOnGroup, |segments| {
        if rejected(segments) > 0 {
            for segment in segments.iter_mut().filter(|segment| segment[0] == b"AK5") {
                *segment = vec![b"AK5".to_vec(), b"R".to_vec(), b"5".to_vec()];
            }
        }
    });
}

#[test]
fn a_block_left_out_is_caught() {
    is_caught(Fault::NumberOfBlocks, |segments| {
        let start = segments.iter().position(|segment| segment[0] == b"AK2");
        let end = segments.iter().position(|segment| segment[0] == b"AK5");
        segments.drain(start.unwrap()..=end.unwrap());
    });
}

#[test]
fn another_header_for_a_rejected_set_is_caught() {
    is_caught(Fault::HeaderOfSpoiledSet, |segments| {
        for at in 0..segments.len() {
            if segments[at][0] == b"AK2" && segments[at + 1][0] == b"AK3" {
                segments[at][2] = b"0000".to_vec();
            }
        }
    });
}

#[test]
fn counts_that_follow_the_rejected_sets_are_caught() {
    let element = |id: &'static str, place: usize| {
        move |segments: &mut Segments| {
            let value = number(rejected(segments));
            find(segments, id)[place] = value;
        }
    };
    is_caught(Fault::Opening, element("GS", 6));
    is_caught(Fault::OpeningOfGroup, element("AK1", 2));
    is_caught(Fault::DeclaredSets, element("AK9", 2));
    is_caught(Fault::ReceivedSets, element("AK9", 3));
    is_caught(Fault::AcceptedSets, element("AK9", 4));
    is_caught(Fault::SegmentCount, element("SE", 1));
    is_caught(Fault::NumberInTrailer, element("SE", 2));
    is_caught(Fault::Closing, element("GE", 1));
}

#[test]
fn a_group_code_for_a_rejected_set_is_caught() {
    is_caught(Fault::GroupCodes, |segments| {
        let sets = rejected(segments);
        let ak9 = find(segments, "AK9");
        if sets > 0 && ak9.len() == 5 {
            ak9[1] = b"R".to_vec();
            ak9[4] = b"0".to_vec();
            ak9.push(b"5".to_vec());
        }
    });
}

/// What the gate compares: `compare damage --seed 1 --count 5000`.
const GATE: (u64, usize) = (1, 5_000);

/// So many of the gate's pairs must show a fault.
const SEVERAL: usize = 10;

/// Whether a fault is found in several of the gate's pairs where `edit` changes
/// the 997s of every response, each from ST to SE.
fn is_caught_in_groups(wanted: Fault, edit: impl Fn(&mut Vec<Segments>)) {
    let (seed, count) = GATE;
    let library = |case: &Case| {
        let mut outcome = of_second(answer, case, 0);
        let (separator, terminator) = (outcome.response()[3], outcome.response()[105]);
        let mut segments = cut(outcome.response(), separator, terminator);
        let closing = segments.split_off(segments.len() - 3);
        let inner = segments.split_off(2);
        let mut acknowledgments: Vec<Segments> = inner
            .chunk_by(|_, next| next[0] != b"ST")
            .map(<[Vec<Vec<u8>>]>::to_vec)
            .collect();
        edit(&mut acknowledgments);
        segments.extend(acknowledgments.concat());
        segments.extend(closing);
        write(&mut outcome, &joined(&segments, separator, terminator));
        outcome
    };
    let pairs = (0..)
        .filter_map(|index| Pair::make(seed, index))
        .take(count);
    let faults = pairs
        .filter_map(|pair| fault(&pair, &library(&pair.before), &library(&pair.after)))
        .filter(|&fault| fault == wanted);
    assert_eq!(faults.take(SEVERAL).count(), SEVERAL, "{wanted:?}");
}

#[test]
fn positions_carried_over_to_the_next_group_are_caught() {
    is_caught_in_groups(Fault::OtherGroup, |acknowledgments| {
        let mut notes = 0;
        for segment in acknowledgments.iter_mut().flatten() {
            if segment[0] == b"AK3" {
                notes += 1;
                segment[2] = number(notes);
            }
        }
    });
}

#[test]
fn groups_rejected_with_an_earlier_one_are_caught() {
    is_caught_in_groups(Fault::OtherGroup, |acknowledgments| {
        let mut rejects = false;
        for acknowledgment in acknowledgments {
            if rejects {
                for ak5 in acknowledgment.iter_mut().filter(|ak5| ak5[0] == b"AK5") {
                    *ak5 = vec![b"AK5".to_vec(), b"R".to_vec(), b"5".to_vec()];
                }
                let ak9 = find(acknowledgment, "AK9");
                ak9[1] = b"R".to_vec();
                ak9[4] = b"0".to_vec();
            }
            rejects |= rejected(acknowledgment) > 0;
        }
    });
}

#[test]
fn numbers_of_accepted_groups_only_are_caught() {
    is_caught_in_groups(Fault::OtherGroup, |acknowledgments| {
        let mut accepted = 1;
        for acknowledgment in acknowledgments {
            let count = format!("{accepted:04}").into_bytes();
            find(acknowledgment, "ST")[2] = count.clone();
            find(acknowledgment, "SE")[2] = count;
            accepted += usize::from(rejected(acknowledgment) == 0);
        }
    });
}

#[test]
fn segments_counted_on_from_an_earlier_group_are_caught() {
    is_caught_in_groups(Fault::SegmentCount, |acknowledgments| {
        let mut segments = 0;
        for acknowledgment in acknowledgments {
            segments += acknowledgment.len();
            find(acknowledgment, "SE")[1] = number(segments);
        }
    });
}

#[test]
fn a_rejected_group_left_out_is_caught() {
    is_caught_in_groups(Fault::NumberOf997s, |acknowledgments| {
        acknowledgments.retain(|acknowledgment| rejected(acknowledgment) == 0);
    });
}
