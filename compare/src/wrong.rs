//! Wrong programs that the gate's own cases must show, several times each.
//!
//! Each is the second program, but sees other segments than there are, or
//! tells other segments than it should.

use crate::outcome::{of_second, outcome, Outcome};
use crate::segments::{cut, joined, number, Segments};
use second::generator::{Case, Family};
use std::collections::hash_map::{Entry, HashMap};

mod calendars;
mod echoes;
mod groups;
mod interchanges;
mod repetitions;

/// What the gate compares: `compare cases --seed 1 --count 200000`.
const SEED: u64 = 1;
const COUNT: u64 = 200_000;

/// So many cases must show a wrong program.
const SEVERAL: usize = 10;

/// What every byte of a buffer holds that was not written.
const LENT: u8 = 0;

/// How the second program is made wrong.
struct Wrong<S, T> {
    /// Changes the segments of the interchange before they are answered, and
    /// says whether the answer may be another one.
    sees: S,
    /// Changes the segments of the response, by the control numbers of the sets.
    tells: T,
}

impl<S: Fn(&mut Segments) -> bool, T: Fn(&[Vec<u8>], &mut Segments)> Wrong<S, T> {
    fn differs(&self, case: &Case) -> bool {
        let wrong = self.response(case);
        wrong.is_some_and(|wrong| differs(case, &wrong))
    }

    /// Nothing where it is no other than the right one.
    fn response(&self, case: &Case) -> Option<Vec<u8>> {
        let (&separator, &terminator) = (case.interchange.get(3)?, case.interchange.get(105)?);
        let mut received = cut(&case.interchange, separator, terminator);
        let controls = control_numbers(&received);
        if !(self.sees)(&mut received) {
            return None;
        }
        response(case, &case.interchange)?;
        let seen = joined(&received, separator, terminator);
        let mut sent = cut(&response(case, &seen)?, separator, terminator);
        (self.tells)(&controls, &mut sent);
        Some(joined(&sent, separator, terminator))
    }

    fn shown(&self, family: Family) -> usize {
        shown(family, |case| self.differs(case))
    }
}

/// Whether a program that sends this response is another than the second one.
fn differs(case: &Case, response: &[u8]) -> bool {
    sending(case, response) != of_second(second::answer, case, LENT)
}

/// What a program leaves behind that sends this response, if it fits.
fn sending(case: &Case, response: &[u8]) -> Outcome {
    outcome(case, LENT, |buffer| {
        match buffer.get_mut(..response.len()) {
            None => (14, response.len()),
            Some(start) => {
                start.copy_from_slice(response);
                (0, response.len())
            }
        }
    })
}

/// How many of the gate's cases of a family differ, up to `SEVERAL`.
fn shown(family: Family, differs: impl Fn(&Case) -> bool) -> usize {
    (0..COUNT)
        .filter(|&index| Family::of(SEED, index) == family)
        .filter(|&index| differs(&Case::make(SEED, index)))
        .take(SEVERAL)
        .count()
}

/// The response in a buffer without an end, or nothing for a refusal.
fn response(case: &Case, interchange: &[u8]) -> Option<Vec<u8>> {
    let answer = second::answer(interchange, usize::MAX, case.date, case.time, case.control);
    (answer.number() == 0).then(|| answer.response().to_vec())
}

/// ST02 of each set, so far as it has one.
fn control_numbers(segments: &Segments) -> Vec<Vec<u8>> {
    let headers = segments.iter().filter(|segment| segment[0] == b"ST");
    headers
        .map(|header| header.get(2).cloned().unwrap_or_default())
        .collect()
}

/// A program that takes the control numbers of the sets for other ones, and
/// echoes them as they are.
fn mistaking(
    mistake: impl Fn(&[Vec<u8>]) -> Vec<Vec<u8>>,
) -> Wrong<impl Fn(&mut Segments) -> bool, impl Fn(&[Vec<u8>], &mut Segments)> {
    let sees = move |segments: &mut Segments| {
        let right = control_numbers(segments);
        let wrong = mistake(&right);
        let mut pairs = right.iter().zip(&wrong);
        let mut pair = None;
        for segment in segments {
            if segment[0] == b"ST" {
                pair = pairs.next();
            }
            // The header, and a trailer that has its number.
            if let (b"ST" | b"SE", Some((right, wrong))) = (segment[0].as_slice(), pair) {
                if segment.get(2) == Some(right) {
                    segment[2] = wrong.clone();
                }
            }
        }
        right != wrong
    };
    let tells = |controls: &[Vec<u8>], segments: &mut Segments| {
        let headers = segments.iter_mut().filter(|segment| segment[0] == b"AK2");
        for (header, control) in headers.zip(controls) {
            header[2] = control.clone();
        }
    };
    Wrong { sees, tells }
}

/// Takes a control number for the first one that has the same first bytes.
fn by_first_bytes(bytes: usize) -> impl Fn(&[Vec<u8>]) -> Vec<Vec<u8>> {
    move |controls| {
        let mut first: HashMap<&[u8], &Vec<u8>> = HashMap::new();
        let mut seen = Vec::new();
        for control in controls {
            let beginning = &control[..bytes.min(control.len())];
            seen.push(first.entry(beginning).or_insert(control).to_vec());
        }
        seen
    }
}

/// Takes a control number for a new one where it came before, but only in sets
/// that are forgotten: set `old` for set `new` where `knows(old, new)` is false.
fn forgetting(knows: impl Fn(usize, usize) -> bool) -> impl Fn(&[Vec<u8>]) -> Vec<Vec<u8>> {
    move |controls| {
        let mut sets_of: HashMap<&Vec<u8>, Vec<usize>> = HashMap::new();
        let mut seen = controls.to_vec();
        for (set, control) in controls.iter().enumerate() {
            let before = sets_of.entry(control).or_default();
            if !before.is_empty() && !before.iter().any(|&old| knows(old, set)) {
                seen[set] = new_number(set);
            }
            before.push(set);
        }
        seen
    }
}

/// Takes a control number for a new one where the way to the same one leads
/// through so many sets or more, in a tree that parts by two bits.
fn giving_up_after(sets: usize) -> impl Fn(&[Vec<u8>]) -> Vec<Vec<u8>> {
    move |controls| {
        let mut tree: HashMap<(usize, u128), &Vec<u8>> = HashMap::new();
        let mut seen = controls.to_vec();
        for (set, control) in controls.iter().enumerate() {
            let mut depth = 0;
            let mut is_new = true;
            while depth <= 36 && is_new {
                match tree.entry((depth, bits_of(control) >> (72 - 2 * depth))) {
                    Entry::Vacant(place) => {
                        place.insert(control);
                        break;
                    }
                    Entry::Occupied(place) => is_new = *place.get() != control,
                }
                depth += 1;
            }
            if !is_new && depth > sets {
                seen[set] = new_number(set);
            }
        }
        seen
    }
}

/// The bits of up to nine bytes, the first on top.
fn bits_of(control: &[u8]) -> u128 {
    let bytes = control.iter().chain(std::iter::repeat(&0)).take(9);
    bytes.fold(0, |bits, &byte| bits << 8 | u128::from(byte))
}

/// Four lower-case letters, which no case has that this is tried on.
fn new_number(set: usize) -> Vec<u8> {
    [1, 26, 676, 17_576]
        .map(|power| b'a' + (set / power % 26) as u8)
        .to_vec()
}

#[test]
fn what_sees_and_tells_the_same_never_shows() {
    let same = Wrong {
        sees: |_: &mut Segments| true,
        tells: |_: &[Vec<u8>], _: &mut Segments| {},
    };
    for index in 0..5_000 {
        assert!(!same.differs(&Case::make(SEED, index)), "{index}");
    }
}

#[test]
fn positions_capped_at_8500_show() {
    let wrong = Wrong {
        sees: |_: &mut Segments| true,
        tells: |_: &[Vec<u8>], segments: &mut Segments| {
            for segment in segments.iter_mut().filter(|segment| segment[0] == b"AK3") {
                let position: usize = std::str::from_utf8(&segment[2]).unwrap().parse().unwrap();
                segment[2] = number(position.min(8_500));
            }
        },
    };
    assert_eq!(wrong.shown(Family::ManyNotes), SEVERAL);
}

#[test]
fn b104_r_accepted_shows() {
    let wrong = Wrong {
        sees: |segments: &mut Segments| {
            let refused = segments.iter_mut().filter(|segment| {
                segment[0] == b"B1" && segment.get(4).is_some_and(|code| code == b"R")
            });
            refused.map(|segment| segment[4] = b"A".to_vec()).count() > 0
        },
        tells: |_: &[Vec<u8>], _: &mut Segments| {},
    };
    assert_eq!(wrong.shown(Family::DamagedSets), SEVERAL);
}

#[test]
fn control_numbers_compared_by_their_first_bytes_show() {
    for bytes in [6, 8] {
        let wrong = mistaking(by_first_bytes(bytes));
        assert_eq!(wrong.shown(Family::DamagedSets), SEVERAL, "{bytes}");
    }
}

#[test]
fn control_numbers_not_kept_after_4900_sets_show() {
    let wrong = mistaking(forgetting(|old, _| old < 4_900));
    assert_eq!(wrong.shown(Family::ManySets), SEVERAL);
}

#[test]
fn control_numbers_thrown_away_after_4900_sets_show() {
    let wrong = mistaking(forgetting(|old, new| new < 4_900 || old >= 4_900));
    assert_eq!(wrong.shown(Family::ManySets), SEVERAL);
}

#[test]
fn control_numbers_not_found_deep_in_a_tree_show() {
    let wrong = mistaking(giving_up_after(28));
    assert_eq!(wrong.shown(Family::DeepNumbers), SEVERAL);
}
