//! Cases made from a seed, for comparing two programs.
//!
//! A case depends on its seed and index alone, so a run can be cut into
//! pieces and a single case be made again.

mod byte_damage;
mod content;
mod control_numbers;
pub mod coverage;
mod days;
mod draft;
mod echoes;
mod envelopes;
mod first_line;
mod group_damage;
mod groups;
pub mod prng;
mod refusals;
mod repetitions;
mod set_damage;
mod sizes;
mod soup;

use crate::delimiters::Delimiters;
use crate::exchange::RESPONSE_BUFFER;
use crate::{answer, answer_interchange, Answer, Entry};
use draft::Draft;
use prng::Prng;

/// What a case was made to be.
#[derive(Debug, Clone, Copy, PartialEq, Eq, PartialOrd, Ord)]
pub enum Family {
    Clean,
    DamagedSets,
    /// With days around the ends of months, and such as are none.
    MonthEnds,
    /// With values that AK4 shows or withholds.
    Echoes,
    /// With ISA11 as the repetition separator, or nearly, and values that hold it.
    Repetitions,
    DamagedGroup,
    Soup,
    /// Of one to sixteen groups of every kind.
    Groups,
    /// Of several groups, made for one refusal number from 7 to 13.
    RefusedGroups(u8),
    /// With faults of the envelope around one group, or none.
    Envelopes,
    /// Made for one refusal number.
    Refusal(u8),
    /// Made for two refusal numbers, of which the first is the lower.
    RefusalPair(u8, u8),
    DamagedBytes,
    BufferEdge,
    NearShortest,
    NearLongest,
    DeepNumbers,
    ManySets,
    ManyNotes,
    ManyEchoes,
    LargeGroups,
}

impl Family {
    /// The family of the case of this seed and index.
    pub fn of(seed: u64, index: u64) -> Self {
        pick_family(&mut Prng::for_case(seed, index))
    }

    /// What a report calls it; all pairs of refusals go by one name.
    pub fn name(self) -> String {
        match self {
            Family::Refusal(number) => format!("Refusal {number:02}"),
            Family::RefusalPair(..) => "RefusalPair".to_string(),
            Family::RefusedGroups(number) => format!("RefusedGroups {number:02}"),
            other => format!("{other:?}"),
        }
    }
}

/// One input of an entry.
#[derive(Debug, Clone, PartialEq, Eq)]
pub struct Case {
    pub family: Family,
    pub interchange: Vec<u8>,
    pub buffer_length: usize,
    pub date: u32,
    pub time: u32,
    pub control: u32,
}

impl Case {
    pub fn make(seed: u64, index: u64) -> Self {
        let prng = &mut Prng::for_case(seed, index);
        let family = pick_family(prng);
        make_in_family(prng, family)
    }

    /// The answer with a 997.
    pub fn answer(&self) -> Answer {
        self.answer_by(answer)
    }

    /// The answer with a TA1.
    pub fn answer_interchange(&self) -> Answer {
        self.answer_by(answer_interchange)
    }

    pub fn answer_by(&self, entry: Entry) -> Answer {
        self.answer_into(entry, self.buffer_length)
    }

    fn answer_into(&self, entry: Entry, buffer_length: usize) -> Answer {
        entry(
            &self.interchange,
            buffer_length,
            self.date,
            self.time,
            self.control,
        )
    }
}

/// The cases of a seed, without end.
pub fn cases(seed: u64) -> impl Iterator<Item = Case> {
    (0..).map(move |index| Case::make(seed, index))
}

/// A whole standard input for a program: the case of this seed and index behind a
/// first line, which is bad in some.
pub fn standard_input(seed: u64, index: u64) -> Vec<u8> {
    let case = Case::make(seed, index);
    let prng = &mut Prng::for_case(!seed, index);
    let line = if prng.percent(20) {
        first_line::bad
    } else {
        first_line::good
    };
    let mut input = line(prng, case.date, case.time, case.control);
    input.extend(case.interchange);
    input
}

/// Nearly all cases are small, so that a run of many is quick.
fn pick_family(prng: &mut Prng) -> Family {
    match prng.below(1000) {
        0..50 => Family::Clean,
        50..190 => Family::DamagedSets,
        190..230 => Family::Echoes,
        230..232 => Family::ManyEchoes,
        232..272 => Family::MonthEnds,
        272..352 => Family::Repetitions,
        352..412 => Family::DamagedGroup,
        412..477 => Family::Soup,
        477..567 => Family::Groups,
        567..627 => {
            let number = *prng.pick(&[7, 7, 7, 8, 8, 8, 9, 10, 11, 12, 13]);
            Family::RefusedGroups(number)
        }
        627..727 => Family::Envelopes,
        727..797 => Family::Refusal(prng.byte_between(1, 14)),
        797..882 => {
            let one = prng.between(1, 14) as u8;
            let other = (one + prng.byte_between(0, 12)) % 14 + 1;
            Family::RefusalPair(one.min(other), one.max(other))
        }
        882..952 => Family::DamagedBytes,
        952..982 => Family::BufferEdge,
        982..987 => Family::DeepNumbers,
        987..992 => Family::NearShortest,
        992..994 => Family::NearLongest,
        994..996 => Family::ManySets,
        996..998 => Family::ManyNotes,
        _ => Family::LargeGroups,
    }
}

fn make_in_family(prng: &mut Prng, family: Family) -> Case {
    let delimiters = content::delimiters(prng);
    match family {
        Family::Clean => as_drafted(family, &Draft::clean(prng, delimiters)),
        Family::DamagedSets => as_drafted(family, &damaged_sets(prng, delimiters)),
        Family::MonthEnds => as_drafted(family, &month_ends(prng, delimiters)),
        Family::Echoes => at_buffer_edge(family, &echoes(prng, delimiters), prng),
        Family::Repetitions => {
            let draft = repetitions(prng, delimiters);
            if prng.percent(20) {
                at_buffer_edge(family, &draft, prng)
            } else {
                as_drafted(family, &draft)
            }
        }
        Family::DamagedGroup => as_drafted(family, &damaged_group(prng, delimiters)),
        Family::Soup => as_drafted(family, &soup::soup(prng, delimiters)),
        Family::Groups => at_buffer_edge(family, &groups(prng, delimiters), prng),
        Family::RefusedGroups(number) => {
            as_drafted(family, &groups::refused(prng, delimiters, number))
        }
        Family::Envelopes => envelopes(prng, delimiters),
        Family::Refusal(number) => {
            let draft = Draft::clean(prng, delimiters);
            refused(prng, family, draft, &[number])
        }
        Family::RefusalPair(low, high) => {
            let draft = Draft::clean(prng, delimiters);
            refused(prng, family, draft, &[high, low])
        }
        Family::DamagedBytes => {
            let mut case = as_drafted(family, &any_small(prng, delimiters));
            byte_damage::damage_bytes(prng, &mut case.interchange);
            case
        }
        Family::BufferEdge => {
            let mut case = as_drafted(family, &any_small(prng, delimiters));
            case.buffer_length = near_needed(prng, &case);
            case
        }
        Family::NearShortest => {
            let mut draft = Draft::clean(prng, delimiters);
            let interchange = sizes::near_shortest(prng, &mut draft);
            case_of(family, &draft, interchange)
        }
        Family::NearLongest => as_drafted(family, &sizes::near_longest(prng, delimiters)),
        Family::DeepNumbers => as_drafted(family, &sizes::deep_numbers(prng, delimiters)),
        Family::ManySets => at_buffer_edge(family, &sizes::many_sets(prng, delimiters), prng),
        Family::ManyNotes => at_buffer_edge(family, &sizes::many_notes(prng, delimiters), prng),
        Family::ManyEchoes => at_buffer_edge(family, &sizes::many_echoes(prng, delimiters), prng),
        Family::LargeGroups => at_buffer_edge(family, &sizes::large_groups(prng, delimiters), prng),
    }
}

fn as_drafted(family: Family, draft: &Draft) -> Case {
    case_of(family, draft, draft.render())
}

fn case_of(family: Family, draft: &Draft, interchange: Vec<u8>) -> Case {
    Case {
        family,
        interchange,
        buffer_length: RESPONSE_BUFFER,
        date: draft.date,
        time: draft.time,
        control: draft.control,
    }
}

fn damaged_sets(prng: &mut Prng, delimiters: Delimiters) -> Draft {
    let mut draft = Draft::clean(prng, delimiters);
    set_damage::damage_sets(prng, &mut draft);
    draft
}

fn month_ends(prng: &mut Prng, delimiters: Delimiters) -> Draft {
    let mut draft = if prng.percent(50) {
        Draft::clean(prng, delimiters)
    } else {
        damaged_sets(prng, delimiters)
    };
    days::put_near_month_ends(prng, &mut draft);
    draft
}

fn echoes(prng: &mut Prng, delimiters: Delimiters) -> Draft {
    let mut draft = if prng.percent(70) {
        Draft::clean(prng, delimiters)
    } else {
        damaged_sets(prng, delimiters)
    };
    echoes::put_values(prng, &mut draft);
    draft
}

/// One group in most cases, clean in most, and else two or three.
fn repetitions(prng: &mut Prng, delimiters: Delimiters) -> Draft {
    let isa11 = repetitions::isa11(prng, &delimiters);
    // What is put there stands nowhere else, whether it is a delimiter or not.
    let delimiters = Delimiters {
        repetition: Some(isa11),
        ..delimiters
    };
    let groups = *prng.pick(&[1, 1, 1, 1, 2, 2, 3]);
    let parts = (0..groups)
        .map(|_| match prng.below(10) {
            0..7 => groups::small(prng, delimiters),
            7..9 => damaged_sets(prng, delimiters),
            _ => any_group(prng, delimiters),
        })
        .collect();
    let mut draft = groups::joined(prng, parts);
    repetitions::put(prng, &mut draft, isa11);
    draft
}

fn damaged_group(prng: &mut Prng, delimiters: Delimiters) -> Draft {
    let mut draft = Draft::clean(prng, delimiters);
    if prng.percent(30) {
        set_damage::damage_sets(prng, &mut draft);
    }
    group_damage::damage_group(prng, &mut draft);
    draft
}

/// One group of every kind.
fn any_group(prng: &mut Prng, delimiters: Delimiters) -> Draft {
    match prng.below(5) {
        0 => Draft::clean(prng, delimiters),
        1 => damaged_sets(prng, delimiters),
        2 => damaged_group(prng, delimiters),
        3 => echoes(prng, delimiters),
        _ => soup::soup(prng, delimiters),
    }
}

/// One group in most cases, and else two or three.
fn any_small(prng: &mut Prng, delimiters: Delimiters) -> Draft {
    let groups = *prng.pick(&[1, 1, 1, 1, 2, 2, 3]);
    let parts = (0..groups).map(|_| any_group(prng, delimiters)).collect();
    groups::joined(prng, parts)
}

fn groups(prng: &mut Prng, delimiters: Delimiters) -> Draft {
    let count = groups::count(prng);
    // Most are clean, so that the faults of one show beside the others.
    let mut parts: Vec<Draft> = (0..count)
        .map(|_| match prng.below(8) {
            0..4 => groups::small(prng, delimiters),
            4 | 5 => damaged_sets(prng, delimiters),
            6 => damaged_group(prng, delimiters),
            _ => any_group(prng, delimiters),
        })
        .collect();
    groups::liken(prng, &mut parts);
    let mut draft = groups::joined(prng, parts);
    if prng.percent(10) {
        groups::leave_open(&mut draft);
    }
    draft
}

fn envelopes(prng: &mut Prng, delimiters: Delimiters) -> Case {
    let mut draft = if prng.percent(75) {
        Draft::clean(prng, delimiters)
    } else {
        damaged_group(prng, delimiters)
    };
    if prng.percent(50) {
        envelopes::put_date_and_time(prng, &mut draft);
    }
    let numbers = envelopes::refusals(prng);
    let mut case = refused(prng, Family::Envelopes, draft, &numbers);
    case.buffer_length = envelopes::buffer_length(prng);
    case
}

/// A draft, damaged for each of the refusals. The lowest comes last, so that
/// no other damage undoes it.
fn refused(prng: &mut Prng, family: Family, mut draft: Draft, numbers: &[u8]) -> Case {
    for &number in numbers {
        refusals::provoke_in_draft(prng, &mut draft, number);
    }
    let mut interchange = draft.render();
    for &number in numbers {
        refusals::provoke_in_bytes(prng, &draft, &mut interchange, number);
    }
    let mut case = case_of(family, &draft, interchange);
    if numbers.contains(&14) {
        case.buffer_length = below_needed(prng, &case);
    }
    case
}

fn at_buffer_edge(family: Family, draft: &Draft, prng: &mut Prng) -> Case {
    let mut case = as_drafted(family, draft);
    if prng.percent(50) {
        case.buffer_length = near_needed(prng, &case);
    }
    case
}

/// The length of the 997, or 0 where it is refused in any buffer.
fn needed(case: &Case) -> usize {
    case.answer_into(answer, usize::MAX).length()
}

/// A buffer length that fits exactly, is a little off or far off.
fn near_needed(prng: &mut Prng, case: &Case) -> usize {
    let needed = needed(case);
    match prng.below(8) {
        0 => 0,
        1 => 1,
        2 | 3 => needed,
        4 | 5 => needed.saturating_sub(1),
        6 => needed + 1,
        _ => needed * 2 + 100_000,
    }
}

fn below_needed(prng: &mut Prng, case: &Case) -> usize {
    match needed(case) {
        0 => 0,
        needed => *prng.pick(&[0, 1, 105, 106, needed - 2, needed - 1]),
    }
}
