//! Demand 3: a spoiled set spoils no other.
//!
//! Where some sets of an interchange have other segments between header and
//! trailer, the interchange is still answered. A group without such a set
//! keeps its 997. In any other group the blocks of all other sets, the number
//! of sets and the codes of the group stay as they were.

use crate::outcome::Outcome;
use crate::pair::Pair;
use crate::response::{Acknowledgment, Response};
use crate::show;
use crate::tally::Tally;
use second::generator::Case;
use std::io;

#[cfg(test)]
mod tests;

/// What changed though it has to stay, or does not follow from the rest.
#[derive(Debug, Clone, Copy, PartialEq, Eq, PartialOrd, Ord)]
enum Fault {
    Refused,
    Not997,
    Delimiters,
    Opening,
    NumberOf997s,
    OtherGroup,
    OpeningOfGroup,
    OtherSet,
    HeaderOfSpoiledSet,
    NumberOfBlocks,
    DeclaredSets,
    ReceivedSets,
    GroupCodes,
    VerdictOnGroup,
    AcceptedSets,
    SegmentCount,
    NumberInTrailer,
    Closing,
}

/// Checks the first pairs of a seed.
pub fn check(
    library: impl Fn(&Case, u8) -> Outcome,
    seed: u64,
    count: u64,
    tally: &mut Tally,
) -> io::Result<()> {
    let pairs = (0..).filter_map(|index| Some((index, Pair::make(seed, index)?)));
    for (index, pair) in pairs.take(count as usize) {
        let lent = index as u8;
        let before = library(&pair.before, lent);
        let after = library(&pair.after, lent);
        match fault(&pair, &before, &after) {
            None => tally.pass(),
            Some(fault) => {
                let name = format!("damage-{seed}-{index}");
                tally.fail(&name, || told(fault, &pair, &before, &after))?;
            }
        }
    }
    Ok(())
}

fn told(fault: Fault, pair: &Pair, before: &Outcome, after: &Outcome) -> String {
    format!(
        "{fault:?}, when these are spoiled: {}.\n\nBefore: {}\n{}\nAfter: {}\n{}",
        spoiled_sets(pair),
        show::case(&pair.before),
        show::outcome(before),
        show::case(&pair.after),
        show::outcome(after),
    )
}

fn spoiled_sets(pair: &Pair) -> String {
    let mut names = Vec::new();
    for (group, sets) in (1..).zip(&pair.spoiled) {
        let spoiled = (1..).zip(sets).filter(|(_, &spoiled)| spoiled);
        names.extend(spoiled.map(|(set, _)| format!("set {set} of group {group}")));
    }
    names.join(", ")
}

fn fault(pair: &Pair, before: &Outcome, after: &Outcome) -> Option<Fault> {
    if before.number != 0 || after.number != 0 {
        return Some(Fault::Refused);
    }
    let before = Response::cut(before.response());
    let after = Response::cut(after.response());
    let (Some(before), Some(after)) = (before, after) else {
        return Some(Fault::Not997);
    };
    let groups = pair.spoiled.len();
    let around_groups = first(&[
        (before.delimiters != after.delimiters, Fault::Delimiters),
        (before.opening != after.opening, Fault::Opening),
        (before.acknowledgments.len() != groups, Fault::NumberOf997s),
        (after.acknowledgments.len() != groups, Fault::NumberOf997s),
        (before.closing != after.closing, Fault::Closing),
    ]);
    let acknowledgments = before.acknowledgments.iter().zip(&after.acknowledgments);
    let mut in_groups = pair.spoiled.iter().zip(acknowledgments);
    around_groups.or_else(|| {
        in_groups.find_map(|(spoiled, (before, after))| fault_of_group(spoiled, before, after))
    })
}

fn fault_of_group(
    spoiled: &[bool],
    before: &Acknowledgment,
    after: &Acknowledgment,
) -> Option<Fault> {
    miscounted(spoiled.len(), before)
        .or_else(|| miscounted(spoiled.len(), after))
        .or_else(|| changed(spoiled, before, after))
}

fn changed(spoiled: &[bool], before: &Acknowledgment, after: &Acknowledgment) -> Option<Fault> {
    if !spoiled.contains(&true) {
        return (before != after).then_some(Fault::OtherGroup);
    }
    let mut blocks = spoiled.iter().zip(before.blocks.iter().zip(&after.blocks));
    let in_sets = blocks.find_map(|(&spoiled, (before, after))| {
        if spoiled {
            (before[0] != after[0]).then_some(Fault::HeaderOfSpoiledSet)
        } else {
            (before != after).then_some(Fault::OtherSet)
        }
    });
    let around_sets = first(&[
        (before.opening != after.opening, Fault::OpeningOfGroup),
        (before.ak9[2] != after.ak9[2], Fault::DeclaredSets),
        (before.ak9[5..] != after.ak9[5..], Fault::GroupCodes),
        (before.se[2] != after.se[2], Fault::NumberInTrailer),
    ]);
    in_sets.or(around_sets)
}

/// What does not follow from the blocks and the group's codes.
fn miscounted(sets: usize, found: &Acknowledgment) -> Option<Fault> {
    let accepted = found.accepted();
    let (ak901, ak904) = match &found.ak9[5..] {
        [] if accepted == sets => ("A", accepted),
        [] if accepted > 0 => ("P", accepted),
        _ => ("R", 0),
    };
    let [ak903, ak904, se01] =
        [sets, ak904, found.segment_count()].map(|count| count.to_string().into_bytes());
    first(&[
        (found.blocks.len() != sets, Fault::NumberOfBlocks),
        (found.ak9[1] != ak901.as_bytes(), Fault::VerdictOnGroup),
        (found.ak9[3] != ak903, Fault::ReceivedSets),
        (found.ak9[4] != ak904, Fault::AcceptedSets),
        (found.se[1] != se01, Fault::SegmentCount),
    ])
}

fn first(faults: &[(bool, Fault)]) -> Option<Fault> {
    let fault = faults.iter().find(|(applies, _)| *applies);
    fault.map(|&(_, fault)| fault)
}
