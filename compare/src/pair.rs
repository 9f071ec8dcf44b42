//! Two interchanges, of which the second has other segments between header
//! and trailer of some sets, in any groups.

use crate::interchange::{groups, id, roomy, separator_and_terminator, Group, FRAME};
use second::generator::prng::Prng;
use second::generator::Case;
use second::isa::LONGEST_INTERCHANGE;
use std::ops::Range;

pub struct Pair {
    pub before: Case,
    pub after: Case,
    /// Of each group which of its sets are spoiled.
    pub spoiled: Vec<Vec<bool>>,
}

impl Pair {
    /// Nothing where the case is refused or has one set only, or where the
    /// other interchange is the same or too long.
    pub fn make(seed: u64, index: u64) -> Option<Self> {
        let before = roomy(Case::make(seed, index));
        if before.answer().number() != 0 {
            return None;
        }
        let groups = groups(&before.interchange);
        let sets: usize = groups.iter().map(|group| group.insides.len()).sum();
        if sets < 2 {
            return None;
        }
        let prng = &mut Prng::for_case(!seed, index);
        let (interchange, spoiled) = spoil(prng, seed, &before.interchange, &groups);
        let fits = interchange.len() <= LONGEST_INTERCHANGE;
        let after = roomy(Case {
            interchange,
            ..before.clone()
        });
        (fits && after != before).then_some(Pair {
            before,
            after,
            spoiled,
        })
    }
}

/// The interchange with other segments in one of its sets, and in some cases in
/// others; and which sets differ by that.
fn spoil(
    prng: &mut Prng,
    seed: u64,
    interchange: &[u8],
    groups: &[Group],
) -> (Vec<u8>, Vec<Vec<bool>>) {
    let sets: usize = groups.iter().map(|group| group.insides.len()).sum();
    let one = prng.below(sets);
    let chance_of_others = *prng.pick(&[0, 20, 60]);
    let mut set = 0;
    let mut copied = 0;
    let mut after = Vec::new();
    let mut spoil_set = |inside: &Range<usize>| {
        let old = &interchange[inside.clone()];
        let new = if set == one || prng.percent(chance_of_others) {
            other_inside(prng, seed, interchange, inside)
        } else {
            old.to_vec()
        };
        after.extend(&interchange[copied..inside.start]);
        after.extend(&new);
        copied = inside.end;
        set += 1;
        new != old
    };
    let mut spoiled = Vec::new();
    for group in groups {
        spoiled.push(group.insides.iter().map(&mut spoil_set).collect());
    }
    after.extend(&interchange[copied..]);
    (after, spoiled)
}

/// Other segments for one set.
fn other_inside(prng: &mut Prng, seed: u64, interchange: &[u8], inside: &Range<usize>) -> Vec<u8> {
    let (separator, terminator) = separator_and_terminator(interchange);
    let bytes = match prng.below(4) {
        0 => Vec::new(),
        1 => noise(prng, separator, terminator),
        2 => scratched(prng, &interchange[inside.clone()]),
        _ => of_another_case(prng, seed, separator, terminator),
    };
    filling(&bytes, separator, terminator)
}

/// Of these bytes the segments that do not end a set.
fn filling(bytes: &[u8], separator: u8, terminator: u8) -> Vec<u8> {
    let bytes = bytes.strip_suffix(&[terminator]).unwrap_or(bytes);
    if bytes.is_empty() {
        return Vec::new();
    }
    bytes
        .split(|&byte| byte == terminator)
        .filter(|segment| !FRAME.contains(&id(segment, separator)))
        .flat_map(|segment| [segment, &[terminator]].concat())
        .collect()
}

fn noise(prng: &mut Prng, separator: u8, terminator: u8) -> Vec<u8> {
    let length = prng.between(1, 200);
    let byte = |_| match prng.below(4) {
        0 => separator,
        1 => terminator,
        2 => *prng.pick(b"B1L1K1STSEGEISA990"),
        _ => prng.byte_between(0, 255),
    };
    (0..length).map(byte).collect()
}

fn scratched(prng: &mut Prng, inside: &[u8]) -> Vec<u8> {
    let mut bytes = inside.to_vec();
    for _ in 0..prng.between(1, 4) {
        let at = prng.below(bytes.len() + 1);
        let byte = prng.byte_between(0, 255);
        let removed = usize::from(at < bytes.len() && prng.percent(60));
        let put = prng.percent(60).then_some(byte);
        bytes.splice(at..at + removed, put);
    }
    bytes
}

/// What a set of some other case has inside, in these delimiters.
fn of_another_case(prng: &mut Prng, seed: u64, separator: u8, terminator: u8) -> Vec<u8> {
    let case = Case::make(seed, prng.below(1 << 32) as u64);
    if case.answer().number() != 0 {
        return of_another_case(prng, seed, separator, terminator);
    }
    let from = separator_and_terminator(&case.interchange);
    let groups = groups(&case.interchange);
    let group = prng.below(groups.len());
    let inside = prng.pick(&groups[group].insides).clone();
    case.interchange[inside]
        .iter()
        .map(|&byte| match byte {
            _ if byte == from.0 => separator,
            _ if byte == from.1 => terminator,
            _ => byte,
        })
        .collect()
}

#[cfg(test)]
mod tests {
    use super::*;

    /// The bytes around and inside the sets of an interchange, by turns.
    fn around_and_inside(interchange: &[u8]) -> (Vec<&[u8]>, Vec<&[u8]>) {
        let groups = groups(interchange);
        let insides: Vec<Range<usize>> =
            groups.into_iter().flat_map(|group| group.insides).collect();
        let starts = std::iter::once(0).chain(insides.iter().map(|inside| inside.end));
        let ends = insides.iter().map(|inside| inside.start);
        let around = starts.zip(ends.chain([interchange.len()]));
        (
            around
                .map(|(start, end)| &interchange[start..end])
                .collect(),
            insides
                .iter()
                .map(|inside| &interchange[inside.clone()])
                .collect(),
        )
    }

    #[test]
    fn a_pair_differs_inside_the_spoiled_sets_only() {
        let pairs = (0..).filter_map(|index| Pair::make(990, index));
        for pair in pairs.take(300) {
            let (around, old) = around_and_inside(&pair.before.interchange);
            let (still_around, new) = around_and_inside(&pair.after.interchange);
            assert_eq!(around, still_around);
            let spoiled: Vec<bool> = old.iter().zip(&new).map(|(old, new)| old != new).collect();
            assert_eq!(spoiled, pair.spoiled.concat());
        }
    }

    #[test]
    fn sets_are_spoiled_in_any_groups() {
        let pairs = (0..).filter_map(|index| Pair::make(1, index));
        let (mut of_groups, mut in_several, mut beside, mut several_sets) = (0, 0, 0, 0);
        for pair in pairs.take(5_000) {
            let touched = |group: &&Vec<bool>| group.contains(&true);
            let groups = pair.spoiled.len();
            let touched = pair.spoiled.iter().filter(touched).count();
            let sets = pair.spoiled.concat().into_iter().filter(|&set| set).count();
            of_groups += u32::from(groups > 1);
            in_several += u32::from(touched > 1);
            beside += u32::from(touched > 0 && touched < groups);
            several_sets += u32::from(sets > 1);
        }
        let seen = [of_groups, in_several, beside, several_sets];
        assert!(seen.iter().all(|&count| count >= 500), "{seen:?}");
    }
}
