//! Programs that are wrong about several groups.
//!
//! Each is put together from what the second program says of each group alone,
//! and makes one mistake in that.

use super::{sending, shown, LENT, SEVERAL};
use crate::alone::each_as_alone;
use crate::interchange::groups;
use crate::outcome::{of_second, outcome, Outcome};
use crate::segments::{cut, joined, number, Segments};
use second::generator::{Case, Family};
use second::isa::ISA_LENGTH;
use second::values::decimal;
use second::{answer, Answer};
use std::collections::HashSet;

type Segment = Vec<Vec<u8>>;

/// An interchange that passes checks 1 to 6 and has groups between ISA and
/// IEA, however many. Any of them may lack its GE.
struct Batch<'a> {
    case: &'a Case,
    groups: Vec<Segments>,
    iea: Segment,
}

impl<'a> Batch<'a> {
    fn read(case: &'a Case) -> Option<Self> {
        if (1..=6).contains(&roomy(case).answer().number()) {
            return None;
        }
        let groups = groups(&case.interchange);
        let starts = groups.iter().map(|group| group.bytes.start);
        let ends = groups.iter().map(|group| group.bytes.end);
        let mut gaps = std::iter::once(ISA_LENGTH).chain(ends).zip(starts);
        if gaps.any(|(end, start)| end != start) {
            return None;
        }
        let [separator, terminator] = delimiters(case);
        let segments = |bytes: &[u8]| {
            let mut segments = cut(bytes, separator, terminator);
            segments.pop();
            segments
        };
        let end = groups.last()?.bytes.end;
        let behind = segments(&case.interchange[end..]);
        let [iea] = &behind[..] else {
            return None;
        };
        let batch = Batch {
            case,
            groups: groups
                .into_iter()
                .map(|group| segments(&case.interchange[group.bytes]))
                .collect(),
            iea: Some(iea.clone()).filter(|last| last[0] == b"IEA")?,
        };
        let mut alone = batch.groups.iter().map(|group| batch.alone(group));
        alone.all(|answer| answer.number() != 7).then_some(batch)
    }

    /// What a group gets alone.
    fn alone(&self, group: &Segments) -> Answer {
        let [separator, terminator] = delimiters(self.case);
        let isa = &self.case.interchange[..ISA_LENGTH];
        let mut rest = group.clone();
        rest.push(vec![
            b"IEA".to_vec(),
            b"1".to_vec(),
            self.case.interchange[90..99].to_vec(),
        ]);
        rest.push(vec![Vec::new()]);
        let interchange = [isa, &joined(&rest, separator, terminator)].concat();
        roomy(&Case {
            interchange,
            ..self.case.clone()
        })
        .answer()
    }

    fn inner_groups_are_closed(&self) -> bool {
        let mut inner = self.groups.iter().rev().skip(1);
        inner.all(|group| group[group.len() - 1][0] == b"GE")
    }

    /// The element at this place in each GS.
    fn of_headers(&self, place: usize) -> Vec<&[u8]> {
        let headers = self.groups.iter().map(|group| &group[0]);
        headers
            .map(|gs| gs.get(place).map(Vec::as_slice).unwrap_or_default())
            .collect()
    }
}

/// A response, in parts.
struct Parts {
    isa: Segment,
    gs: Segment,
    /// From ST to SE.
    acknowledgments: Vec<Segments>,
    ge: Segment,
    iea: Segment,
}

impl Parts {
    /// The right parts for groups that are answered alone with these.
    fn of(case: &Case, alone: &[Answer]) -> Self {
        let [separator, terminator] = delimiters(case);
        let responses: Vec<Segments> = alone
            .iter()
            .map(|answer| cut(answer.response(), separator, terminator))
            .collect();
        let inner = |response: &Segments| response[2..response.len() - 3].to_vec();
        let first = &responses[0];
        let [ge, iea] = [3, 2].map(|from_end| first[first.len() - from_end].clone());
        let mut parts = Parts {
            isa: first[0].clone(),
            gs: first[1].clone(),
            acknowledgments: responses.iter().map(inner).collect(),
            ge,
            iea,
        };
        parts.ge[1] = number(alone.len());
        renumber(&mut parts, |count| format!("{count:04}"));
        parts
    }

    fn bytes(self, case: &Case) -> Vec<u8> {
        let [separator, terminator] = delimiters(case);
        let mut segments = vec![self.isa, self.gs];
        segments.extend(self.acknowledgments.into_iter().flatten());
        segments.extend([self.ge, self.iea, vec![Vec::new()]]);
        joined(&segments, separator, terminator)
    }
}

fn delimiters(case: &Case) -> [u8; 2] {
    [3, 105].map(|at| case.interchange[at])
}

fn roomy(case: &Case) -> Case {
    Case {
        buffer_length: usize::MAX,
        ..case.clone()
    }
}

/// How a program answers several groups.
#[derive(Clone, Copy)]
struct Program {
    most_groups: usize,
    wants_inner_ge: bool,
    /// Whether IEA01 counts so many groups.
    counts: fn(&[u8], usize) -> bool,
    /// Changes the groups before they are judged.
    sees: fn(&mut Vec<Segments>),
    /// The refusal, by the numbers that the groups get alone; 0 for none. A
    /// group that has a number, and is not refused, gets no 997.
    refuses: fn(&Batch, &[u8]) -> u8,
    /// Changes the response.
    tells: fn(&Batch, &mut Parts),
}

const RIGHT: Program = Program {
    most_groups: 16,
    wants_inner_ge: true,
    counts: |iea01, groups| decimal(iea01, 5) == Some(groups as u64),
    sees: |_| {},
    refuses: |_, numbers| first_refusal(numbers),
    tells: |_, _| {},
};

fn first_refusal(numbers: &[u8]) -> u8 {
    let mut refusals = numbers.iter().filter(|&&number| number != 0);
    refusals.next().copied().unwrap_or_default()
}

impl Program {
    fn outcome(&self, case: &Case) -> Outcome {
        match Batch::read(case) {
            Some(batch) => self.answer(batch),
            None => of_second(answer, case, LENT),
        }
    }

    fn answer(&self, mut batch: Batch) -> Outcome {
        let case = batch.case;
        let refusing = |number: u8| outcome(case, LENT, |_| (u32::from(number), 0));
        let groups = batch.groups.len();
        let closed = batch.inner_groups_are_closed() || !self.wants_inner_ge;
        if groups > self.most_groups || !closed {
            return refusing(7);
        }
        let isa13 = &case.interchange[90..99];
        let [_, iea01, iea02] = &batch.iea[..] else {
            return refusing(8);
        };
        if iea02 != isa13 || !(self.counts)(iea01, groups) {
            return refusing(8);
        }
        (self.sees)(&mut batch.groups);
        let mut alone: Vec<Answer> = batch.groups.iter().map(|g| batch.alone(g)).collect();
        let numbers: Vec<u8> = alone.iter().map(Answer::number).collect();
        let number = (self.refuses)(&batch, &numbers);
        if number != 0 {
            return refusing(number);
        }
        alone.retain(|answer| answer.number() == 0);
        let mut parts = Parts::of(case, &alone);
        (self.tells)(&batch, &mut parts);
        sending(case, &parts.bytes(case))
    }

    fn differs(&self, case: &Case) -> bool {
        self.outcome(case) != of_second(answer, case, LENT)
    }

    /// Whether the 997s of the program itself are not those of each group alone.
    fn differs_alone(&self, case: &Case) -> bool {
        let program = |case: &Case| self.outcome(case);
        !each_as_alone(program, case, &program(case))
    }

    fn shows_in(self, family: Family) {
        assert_eq!(shown(family, |case| self.differs(case)), SEVERAL);
    }

    fn shows(self) {
        self.shows_in(Family::Groups);
    }

    fn shows_alone(self) {
        let differs = |case: &Case| self.differs_alone(case);
        assert_eq!(shown(Family::Groups, differs), SEVERAL);
    }
}

/// A program shows that changes the response like this.
fn telling_shows(tells: fn(&Batch, &mut Parts)) {
    Program { tells, ..RIGHT }.shows();
}

#[test]
fn what_is_put_together_rightly_never_shows() {
    for index in 0..50_000 {
        let several = matches!(
            Family::of(super::SEED, index),
            Family::Groups | Family::RefusedGroups(_) | Family::LargeGroups
        );
        if several {
            let case = Case::make(super::SEED, index);
            assert!(!RIGHT.differs(&case), "{index}");
            assert!(!RIGHT.differs_alone(&case), "{index}");
        }
    }
}

fn taking(most_groups: usize) -> Program {
    Program {
        most_groups,
        ..RIGHT
    }
}

#[test]
fn another_limit_shows() {
    for fewer in [1, 15] {
        taking(fewer).shows();
    }
    for more in [17, usize::MAX] {
        taking(more).shows_in(Family::RefusedGroups(7));
    }
}

#[test]
fn groups_counted_by_iea01_in_another_way_show() {
    let counted_wrongly: [fn(&[u8], usize) -> bool; 6] = [
        |iea01, _| decimal(iea01, 5) == Some(1),
        |iea01, groups| decimal(iea01, 5) == Some(1) || decimal(iea01, 5) == Some(groups as u64),
        |_, _| true,
        |iea01, groups| decimal(iea01, 5) <= Some(groups as u64),
        |iea01, groups| decimal(iea01, 5) >= Some(groups as u64),
        |iea01, groups| decimal(iea01, 10) == Some(groups as u64),
    ];
    for counts in counted_wrongly {
        Program { counts, ..RIGHT }.shows_in(Family::RefusedGroups(8));
    }
    let too_strict: [fn(&[u8], usize) -> bool; 3] = [
        |iea01, _| decimal(iea01, 5) == Some(1),
        |iea01, groups| iea01 == number(groups),
        |iea01, groups| decimal(iea01, 1) == Some(groups as u64),
    ];
    for counts in too_strict {
        Program { counts, ..RIGHT }.shows();
    }
}

#[test]
fn a_missing_inner_ge_let_pass_shows() {
    let wrong = Program {
        wants_inner_ge: false,
        ..RIGHT
    };
    wrong.shows_in(Family::RefusedGroups(7));
}

/// A program shows that sees the interchange without the segments of which
/// `drops` is told the ids before, at and after it.
fn dropping_shows(drops: fn(before: &[u8], id: &[u8], after: &[u8]) -> bool) {
    let differs = |case: &Case| {
        let [separator, terminator] = delimiters(case);
        let segments = cut(&case.interchange, separator, terminator);
        let dropped = |index: usize| {
            let [before, id, after] = [index - 1, index, index + 1].map(|at| &segments[at][0]);
            drops(before, id, after)
        };
        let last = segments.len() - 1;
        let seen: Segments = (0..=last)
            .filter(|&index| index == 0 || index == last || !dropped(index))
            .map(|index| segments[index].clone())
            .collect();
        let seen = Case {
            interchange: joined(&seen, separator, terminator),
            ..case.clone()
        };
        of_second(answer, &seen, LENT) != of_second(answer, case, LENT)
    };
    assert_eq!(shown(Family::RefusedGroups(7), differs), SEVERAL);
}

#[test]
fn segments_outside_the_groups_let_pass_show() {
    // Between two groups, and after the last.
    dropping_shows(|before, id, after| before == b"GE" && !is_of_envelope(id) && after == b"GS");
    dropping_shows(|before, id, after| before == b"GE" && !is_of_envelope(id) && after == b"IEA");
    // Empty ones only.
    dropping_shows(|before, id, after| before == b"GE" && id.is_empty() && after == b"GS");
    dropping_shows(|before, id, after| before == b"GE" && id.is_empty() && after == b"IEA");
    // A second GE, and a second GS.
    dropping_shows(|before, id, _| before == b"GE" && id == b"GE");
    dropping_shows(|before, id, _| before == b"GS" && id == b"GS");
}

fn is_of_envelope(id: &[u8]) -> bool {
    matches!(id, b"ISA" | b"GS" | b"GE" | b"IEA")
}

#[test]
fn groups_refused_in_another_order_show() {
    let rule_by_rule = Program {
        refuses: |_, numbers| {
            let refusals = numbers.iter().filter(|&&number| number != 0);
            refusals.min().copied().unwrap_or_default()
        },
        ..RIGHT
    };
    let from_the_last = Program {
        refuses: |_, numbers| {
            let mut refusals = numbers.iter().rev().filter(|&&number| number != 0);
            refusals.next().copied().unwrap_or_default()
        },
        ..RIGHT
    };
    for number in 10..=13 {
        rule_by_rule.shows_in(Family::RefusedGroups(number));
    }
    for number in 9..=13 {
        from_the_last.shows_in(Family::RefusedGroups(number));
    }
}

#[test]
fn only_the_first_group_judged_shows() {
    let wrong = Program {
        refuses: |_, numbers| numbers[0],
        tells: |_, parts| {
            parts.acknowledgments.truncate(1);
            parts.ge[1] = number(1);
        },
        ..RIGHT
    };
    wrong.shows();
    wrong.shows_alone();
    for number in 9..=13 {
        wrong.shows_in(Family::RefusedGroups(number));
    }
}

#[test]
fn refused_groups_skipped_show() {
    let wrong = Program {
        refuses: |_, numbers| {
            if numbers.contains(&0) {
                0
            } else {
                numbers[0]
            }
        },
        ..RIGHT
    };
    for number in 9..=13 {
        wrong.shows_in(Family::RefusedGroups(number));
    }
}

/// The number of sets that each group has.
fn sets(batch: &Batch) -> Vec<usize> {
    let is_header = |segment: &&Segment| segment[0] == b"ST";
    let groups = batch.groups.iter();
    groups
        .map(|group| group.iter().filter(is_header).count())
        .collect()
}

/// The first segment of a 997 with this id.
fn find<'a>(acknowledgment: &'a mut Segments, id: &str) -> &'a mut Segment {
    let mut segments = acknowledgment.iter_mut();
    segments
        .find(|segment| segment[0] == id.as_bytes())
        .expect(id)
}

/// Sets AK901 and AK904 by the AK5 and the codes of AK9.
fn judge_anew(acknowledgment: &mut Segments) {
    let verdicts = acknowledgment.iter().filter(|segment| segment[0] == b"AK5");
    let sets = verdicts.clone().count();
    let accepted = verdicts.filter(|ak5| ak5[1] == b"A").count();
    let ak9 = find(acknowledgment, "AK9");
    let (ak901, ak904) = match accepted {
        _ if ak9.len() > 5 => ("R", 0),
        0 => ("R", 0),
        _ if accepted == sets => ("A", accepted),
        _ => ("P", accepted),
    };
    ak9[1] = ak901.as_bytes().to_vec();
    ak9[4] = number(ak904);
}

const REMEMBERING: Program = Program {
    tells: |_, parts| {
        let mut earlier: HashSet<Vec<u8>> = HashSet::new();
        for acknowledgment in &mut parts.acknowledgments {
            let mut own = Vec::new();
            for segment in acknowledgment.iter_mut() {
                match segment[0].as_slice() {
                    b"AK2" => own.push(segment[2].clone()),
                    b"AK5" => {
                        let again = own.last().is_some_and(|number| earlier.contains(number));
                        let known = segment.last().is_some_and(|code| code == b"23");
                        if again && !known {
                            segment[1] = b"R".to_vec();
                            segment.push(b"23".to_vec());
                        }
                    }
                    _ => {}
                }
            }
            judge_anew(acknowledgment);
            earlier.extend(own);
        }
    },
    ..RIGHT
};

#[test]
fn control_numbers_remembered_from_group_to_group_show() {
    REMEMBERING.shows();
    REMEMBERING.shows_alone();
    REMEMBERING.shows_in(Family::LargeGroups);
}

/// A program shows that numbers the 997s like this, from 1 on.
fn numbering_shows(tells: fn(&Batch, &mut Parts)) {
    telling_shows(tells);
    Program { tells, ..RIGHT }.shows_alone();
}

/// Sets ST02 and SE02 of each 997, counted from 1.
fn renumber(parts: &mut Parts, numbered: fn(usize) -> String) {
    for (count, acknowledgment) in (1..).zip(&mut parts.acknowledgments) {
        find(acknowledgment, "ST")[2] = numbered(count).into_bytes();
        find(acknowledgment, "SE")[2] = numbered(count).into_bytes();
    }
}

#[test]
fn another_number_in_st02_shows() {
    numbering_shows(|_, parts| renumber(parts, |_| "0001".to_string()));
    numbering_shows(|_, parts| renumber(parts, |count| format!("{count:04X}")));
    numbering_shows(|_, parts| renumber(parts, |count| format!("{:04}", count % 10)));
    numbering_shows(|_, parts| renumber(parts, |count| format!("{:04}", count - 1)));
    numbering_shows(|_, parts| renumber(parts, |count| count.to_string()));
    numbering_shows(|_, parts| renumber(parts, |count| format!("000{count}")));
    // SE02 alone stays.
    numbering_shows(|_, parts| {
        for acknowledgment in &mut parts.acknowledgments {
            find(acknowledgment, "SE")[2] = b"0001".to_vec();
        }
    });
}

#[test]
fn another_ge01_shows() {
    telling_shows(|_, parts| parts.ge[1] = number(1));
    telling_shows(|batch, parts| parts.ge[1] = format!("{:04}", batch.groups.len()).into_bytes());
    telling_shows(|batch, parts| parts.ge[1] = format!("{:X}", batch.groups.len()).into_bytes());
    telling_shows(|batch, parts| parts.ge[1] = number(sets(batch).iter().sum()));
}

#[test]
fn another_iea01_shows() {
    telling_shows(|batch, parts| parts.iea[1] = number(batch.groups.len()));
}

#[test]
fn gs_of_the_response_from_the_last_group_shows() {
    telling_shows(|batch, parts| {
        for (place, from) in [(2, 3), (3, 2)] {
            let last = batch.of_headers(from).pop();
            parts.gs[place] = last.unwrap_or_default().to_vec();
        }
    });
}

#[test]
fn a_group_of_its_own_for_other_partners_shows() {
    telling_shows(|batch, parts| {
        let partners: Vec<[&[u8]; 2]> = batch
            .of_headers(3)
            .into_iter()
            .zip(batch.of_headers(2))
            .map(|(receiver, sender)| [receiver, sender])
            .collect();
        let (mut groups, mut in_group) = (1, 1);
        for (pair, acknowledgment) in partners.windows(2).zip(&mut parts.acknowledgments[1..]) {
            if pair[0] != pair[1] {
                let (mut ge, mut gs) = (parts.ge.clone(), parts.gs.clone());
                ge[1] = number(in_group);
                gs[2..4].clone_from_slice(&pair[1].map(<[u8]>::to_vec));
                acknowledgment.splice(0..0, [ge, gs]);
                groups += 1;
                in_group = 0;
            }
            in_group += 1;
        }
        parts.ge[1] = number(in_group);
        parts.iea[1] = number(groups);
    });
}

#[test]
fn what_the_first_gs_says_taken_for_all_shows() {
    // GS01, and the edition.
    let seen: [fn(&mut Vec<Segments>); 2] = [
        |groups| like_the_first(groups, 1),
        |groups| like_the_first(groups, 8),
    ];
    for sees in seen {
        let wrong = Program { sees, ..RIGHT };
        wrong.shows();
        wrong.shows_alone();
    }
}

/// Gives each GS the element at this place that the first has.
fn like_the_first(groups: &mut [Segments], place: usize) {
    let first = groups[0][0].get(place).cloned();
    for group in groups {
        if let (Some(element), Some(first)) = (group[0].get_mut(place), &first) {
            *element = first.clone();
        }
    }
}

#[test]
fn ak1_of_the_first_group_for_all_shows() {
    telling_shows(|_, parts| {
        let first = find(&mut parts.acknowledgments[0], "AK1").clone();
        for acknowledgment in &mut parts.acknowledgments {
            *find(acknowledgment, "AK1") = first.clone();
        }
    });
}

#[test]
fn a_missing_last_ge_forgotten_shows() {
    let wrong = Program {
        sees: |groups| {
            let several = groups.len() > 1;
            let last = groups.len() - 1;
            let last = &mut groups[last];
            if several && last[last.len() - 1][0] != b"GE" {
                let sets = last.iter().filter(|segment| segment[0] == b"ST").count();
                let control = last[0].get(6).cloned().unwrap_or_default();
                last.push(vec![b"GE".to_vec(), number(sets), control]);
            }
        },
        ..RIGHT
    };
    wrong.shows();
    wrong.shows_alone();
}

#[test]
fn a_missing_last_ge_told_in_each_997_shows() {
    let wrong = Program {
        sees: |groups| {
            let last = &groups[groups.len() - 1];
            if last[last.len() - 1][0] != b"GE" {
                for group in groups {
                    group.retain(|segment| segment[0] != b"GE");
                }
            }
        },
        ..RIGHT
    };
    wrong.shows();
    wrong.shows_alone();
}

#[test]
fn counts_that_go_on_from_group_to_group_show() {
    let tells: [fn(&Batch, &mut Parts); 4] = [
        // SE01.
        |_, parts| {
            let mut segments = 0;
            for acknowledgment in &mut parts.acknowledgments {
                segments += acknowledgment.len();
                find(acknowledgment, "SE")[1] = number(segments);
            }
        },
        // AK903.
        |batch, parts| {
            let mut received = 0;
            for (acknowledgment, sets) in parts.acknowledgments.iter_mut().zip(sets(batch)) {
                received += sets;
                find(acknowledgment, "AK9")[3] = number(received);
            }
        },
        // The positions in AK3.
        |_, parts| {
            for (before, acknowledgment) in parts.acknowledgments.iter_mut().enumerate() {
                for ak3 in acknowledgment.iter_mut() {
                    if ak3[0] == b"AK3" {
                        let position = decimal(&ak3[2], 9).unwrap_or_default() as usize;
                        ak3[2] = number(position + before);
                    }
                }
            }
        },
        // The verdict on the group, once one is rejected.
        |_, parts| {
            let mut rejected = false;
            for acknowledgment in &mut parts.acknowledgments {
                let ak9 = find(acknowledgment, "AK9");
                rejected |= ak9[1] == b"R";
                if rejected {
                    ak9[1] = b"R".to_vec();
                    ak9[4] = b"0".to_vec();
                }
            }
        },
    ];
    for tells in tells {
        let wrong = Program { tells, ..RIGHT };
        wrong.shows();
        wrong.shows_alone();
    }
}

#[test]
fn the_first_997_for_all_shows() {
    let wrong = Program {
        tells: |_, parts| {
            let count = parts.acknowledgments.len();
            let first = parts.acknowledgments[0].clone();
            parts.acknowledgments = vec![first; count];
            renumber(parts, |count| format!("{count:04}"));
        },
        ..RIGHT
    };
    wrong.shows();
    wrong.shows_alone();
}

#[test]
fn the_997s_in_another_order_show() {
    let wrong = Program {
        tells: |_, parts| {
            parts.acknowledgments.reverse();
            renumber(parts, |count| format!("{count:04}"));
        },
        ..RIGHT
    };
    wrong.shows();
    wrong.shows_alone();
}

#[test]
fn the_same_gs06_refused_shows() {
    let wrong = Program {
        refuses: |batch, numbers| {
            let controls: HashSet<&[u8]> = batch.of_headers(6).into_iter().collect();
            match first_refusal(numbers) {
                0 if controls.len() < batch.groups.len() => 9,
                refusal => refusal,
            }
        },
        ..RIGHT
    };
    wrong.shows();
}

#[test]
fn refusal_14_by_the_longest_997_shows() {
    let differs = |case: &Case| {
        let whole = of_second(answer, case, LENT);
        let fits = |answer: &Answer| answer.length() <= case.buffer_length;
        let batch = Batch::read(case).filter(|_| whole.number == 14);
        batch.is_some_and(|batch| {
            let mut alone = batch.groups.iter().map(|group| batch.alone(group));
            alone.all(|answer| fits(&answer))
        })
    };
    assert_eq!(shown(Family::Groups, differs), SEVERAL);
}
