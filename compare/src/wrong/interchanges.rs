//! Programs that are wrong about TA1, and pairs of entries that do not agree.
//!
//! Each is the second program, but for what it tells in place of some answers.

use super::{sending, shown, LENT, SEVERAL};
use crate::agreement::{agree, ISA14, TA1_LENGTH};
use crate::outcome::{of_second, outcome, Outcome, Outcomes};
use crate::segments::{cut, joined, Segments};
use second::generator::{Case, Family};
use second::isa::ISA_LENGTH;
use second::values::decimal;
use second::{answer, answer_interchange, Answer};

/// An interchange that gets a TA1, if the buffer is long enough.
struct Received<'a> {
    case: &'a Case,
    response: Vec<u8>,
    /// The number that the other entry gives, if the buffer is long enough.
    number: u8,
    /// The last segment, from its id on.
    last: Vec<Vec<u8>>,
    /// How many GS there are.
    groups: usize,
}

impl<'a> Received<'a> {
    fn read(case: &'a Case) -> Option<Self> {
        let roomy = roomy(case);
        let Answer::Acknowledged(response) = roomy.answer_interchange() else {
            return None;
        };
        let segments = segments(case);
        let whole = segments.len().checked_sub(2)?;
        Some(Received {
            case,
            response,
            number: roomy.answer().number(),
            last: segments[whole].clone(),
            groups: segments
                .iter()
                .filter(|segment| segment[0] == b"GS")
                .count(),
        })
    }

    fn note(&self) -> &str {
        std::str::from_utf8(&self.response[134..137]).unwrap()
    }

    fn isa13(&self) -> &[u8] {
        &self.case.interchange[90..99]
    }

    /// IEA01 of an IEA that has two elements.
    fn iea01(&self) -> &[u8] {
        &self.last[1]
    }

    /// IEA02 of an IEA that has two elements.
    fn iea02(&self) -> &[u8] {
        &self.last[2]
    }

    fn counts(&self, groups: usize) -> bool {
        decimal(self.iea01(), 5) == Some(groups as u64)
    }

    /// The note code once IEA02 is taken for ISA13.
    fn note_after_iea02(&self) -> &'static str {
        if self.counts(self.groups) {
            "000"
        } else {
            "021"
        }
    }

    /// The note code once the first two elements are taken for all.
    fn note_after_elements(&self) -> &'static str {
        if self.iea02() == self.isa13() {
            self.note_after_iea02()
        } else {
            "001"
        }
    }

    /// The same with a terminator behind its last byte.
    fn terminated(&self) -> Case {
        let terminator = self.case.interchange[105];
        with_interchange(
            self.case,
            [&self.case.interchange[..], &[terminator]].concat(),
        )
    }

    /// What is left behind by a program that has this note code, and the
    /// verdict that goes with it.
    fn telling(&self, note: &str) -> Outcome {
        let mut response = self.response.clone();
        response[132] = if note == "000" { b'A' } else { b'R' };
        response[134..137].copy_from_slice(note.as_bytes());
        sending(self.case, &response)
    }
}

fn with_interchange(case: &Case, interchange: Vec<u8>) -> Case {
    Case {
        interchange,
        ..case.clone()
    }
}

/// The case in a buffer without an end.
fn roomy(case: &Case) -> Case {
    Case {
        buffer_length: usize::MAX,
        ..case.clone()
    }
}

/// Behind the last terminator stands one more, empty if all is well.
fn segments(case: &Case) -> Segments {
    cut(
        &case.interchange,
        case.interchange[3],
        case.interchange[105],
    )
}

fn wanting_ta1(case: &Case) -> Case {
    let mut wanting = case.clone();
    wanting.interchange[ISA14] = b'1';
    wanting
}

fn wants_ta1(case: &Case) -> bool {
    case.interchange.get(ISA14) == Some(&b'1')
}

fn right(case: &Case) -> Outcome {
    of_second(answer_interchange, case, LENT)
}

/// The value of digits, however many.
fn value(digits: &[u8]) -> Option<u64> {
    let zeros = digits.iter().take_while(|&&digit| digit == b'0').count();
    decimal(&digits[zeros..], 10)
}

fn refusing(case: &Case, number: u32) -> Outcome {
    outcome(case, LENT, |_| (number, 0))
}

fn refusing_the_buffer(case: &Case) -> Outcome {
    outcome(case, LENT, |_| (14, TA1_LENGTH))
}

/// How many of the cases show a program that leaves this behind; nothing where
/// it is no other than the right one.
fn shown_by(wrong: impl Fn(&Case) -> Option<Outcome>) -> usize {
    shown(Family::Envelopes, |case| {
        wrong(case).is_some_and(|wrong| wrong != right(case))
    })
}

fn shows(wrong: impl Fn(&Case) -> Option<Outcome>) {
    assert_eq!(shown_by(wrong), SEVERAL);
}

/// A program shows that has another note code for some interchanges.
fn note_shows(mistaken: impl Fn(&Received) -> Option<&'static str>) {
    note_shows_in(Family::Envelopes, mistaken);
}

fn note_shows_in(family: Family, mistaken: impl Fn(&Received) -> Option<&'static str>) {
    let differs = |case: &Case| {
        Received::read(case).is_some_and(|received| {
            let mistaken = mistaken(&received).map(|note| received.telling(note));
            mistaken.is_some_and(|wrong| wrong != right(case))
        })
    };
    assert_eq!(shown(family, differs), SEVERAL);
}

/// A program shows that writes other segments.
fn writing_shows(change: impl Fn(&Case, &mut Segments)) {
    shows(|case| {
        let response = Received::read(case)?.response;
        let (separator, terminator) = (response[3], response[105]);
        let mut sent = cut(&response, separator, terminator);
        change(case, &mut sent);
        Some(sending(case, &joined(&sent, separator, terminator)))
    });
}

/// Where the segments and elements of a response stand.
const ISA: usize = 0;
const TA1: usize = 1;
const IEA: usize = 2;

#[test]
fn the_right_answers_never_show() {
    let same = |case: &Case| {
        let received = Received::read(case)?;
        Some(received.telling(received.note()))
    };
    assert_eq!(shown_by(same), 0);
}

#[test]
fn iea01_looked_at_before_iea02_shows() {
    note_shows(|received| (received.note() == "001" && !received.counts(1)).then_some("021"));
}

#[test]
fn iea01_of_six_digits_taken_as_a_count_shows() {
    note_shows(|received| {
        let is_one = received.note() == "021" && received.iea01() == b"000001";
        is_one.then_some("000")
    });
}

#[test]
fn iea01_of_any_length_taken_as_a_count_shows() {
    note_shows(|received| {
        let is_one = received.note() == "021" && value(received.iea01()) == Some(1);
        is_one.then_some("000")
    });
}

#[test]
fn iea01_that_overflows_shows() {
    for modulus in [256, 65_536, 1 << 32] {
        note_shows(|received| {
            let overflows = |count| count > 1 && count % modulus == 1;
            let taken =
                received.note() == "021" && decimal(received.iea01(), 10).is_some_and(overflows);
            taken.then_some("000")
        });
    }
}

#[test]
fn iea01_taken_for_one_group_shows() {
    let lenient: [fn(&[u8]) -> bool; 5] = [
        |iea01| iea01.is_empty(),
        |iea01| decimal(iea01, 5) == Some(0),
        |iea01| decimal(iea01, 5) > Some(1),
        |iea01| iea01 == b"+1" || iea01 == b"-1",
        |iea01| iea01.trim_ascii() == b"1",
    ];
    for takes in lenient {
        note_shows(|received| {
            (received.note() == "021" && takes(received.iea01())).then_some("000")
        });
    }
}

#[test]
fn iea01_of_one_digit_only_shows() {
    note_shows(|received| {
        (received.note() == "000" && received.iea01().len() > 1).then_some("021")
    });
}

#[test]
fn two_empty_elements_not_counted_show() {
    note_shows(|received| {
        let empty = received.note() == "001" && received.last[1..] == [b"", b""];
        empty.then_some("022")
    });
}

#[test]
fn empty_elements_at_the_end_not_counted_show() {
    note_shows(|received| {
        let mut fields = received.last.iter();
        let last_filled = fields.rposition(|field| !field.is_empty())?;
        match (received.number, last_filled) {
            (8, 2) => Some(received.note_after_elements()),
            (8, _) => Some("022"),
            _ => None,
        }
    });
}

#[test]
fn more_than_two_elements_not_looked_at_show() {
    note_shows(|received| {
        let more = received.number == 8 && received.last.len() > 3;
        more.then(|| received.note_after_elements())
    });
}

#[test]
fn fewer_than_two_elements_taken_as_empty_ones_show() {
    note_shows(|received| (received.number == 8 && received.last.len() < 3).then_some("001"));
}

#[test]
fn note_codes_exchanged_show() {
    for pair in [
        ["022", "023"],
        ["001", "021"],
        ["021", "022"],
        ["000", "001"],
    ] {
        note_shows(|received| {
            let exchanged = pair.iter().position(|&note| note == received.note())?;
            Some(pair[1 - exchanged])
        });
    }
}

#[test]
fn one_note_code_for_all_of_iea_shows() {
    for note in ["001", "021", "022"] {
        note_shows(|received| (received.number == 8).then_some(note));
    }
}

#[test]
fn check_6_made_after_7_shows() {
    note_shows(|received| {
        let terminated = received.terminated();
        let out_of_order = Received::read(&terminated)?.number == 7;
        (received.number == 6 && out_of_order).then_some("022")
    });
}

#[test]
fn check_6_made_after_8_shows() {
    note_shows(|received| {
        let terminated = received.terminated();
        let seen = Received::read(&terminated).filter(|_| received.number == 6)?;
        ["001", "021", "022"]
            .into_iter()
            .find(|&note| note == seen.note())
    });
}

#[test]
fn another_limit_of_groups_shows() {
    for most in [1, 15] {
        note_shows_in(Family::Groups, |received| {
            (received.groups > most).then_some("022")
        });
    }
    note_shows_in(Family::RefusedGroups(7), |received| {
        (received.groups > 16).then_some("000")
    });
}

#[test]
fn iea01_compared_with_one_for_several_groups_shows() {
    let after_iea02 = |received: &Received| match received.note() {
        "000" | "021" if received.counts(1) => Some("000"),
        "000" | "021" => Some("021"),
        _ => None,
    };
    for family in [Family::Groups, Family::RefusedGroups(8)] {
        note_shows_in(family, after_iea02);
    }
}

#[test]
fn iea01_wrong_by_one_let_pass_shows() {
    for (more, less) in [(1, 0), (0, 1)] {
        note_shows_in(Family::RefusedGroups(8), |received| {
            let near = received.note() == "021" && received.counts(received.groups + more - less);
            near.then_some("000")
        });
    }
}

#[test]
fn iea01_of_six_digits_for_several_groups_shows() {
    note_shows_in(Family::RefusedGroups(8), |received| {
        let long =
            received.note() == "021" && value(received.iea01()) == Some(received.groups as u64);
        long.then_some("000")
    });
}

#[test]
fn a_fault_around_several_groups_let_pass_shows() {
    note_shows_in(Family::RefusedGroups(7), |received| {
        (received.number == 7).then_some("000")
    });
}

#[test]
fn later_groups_that_are_refused_as_faults_of_the_envelope_show() {
    for number in 9..=13 {
        note_shows_in(Family::RefusedGroups(number), |_| Some("022"));
    }
}

#[test]
fn check_7_made_after_8_shows() {
    note_shows(|received| {
        let [separator, terminator] = [3, 105].map(|at| received.case.interchange[at]);
        let last = received.last.join(&separator);
        let isa = &received.case.interchange[..ISA_LENGTH];
        let alone = [isa, b"GS", &[terminator], &last, &[terminator]].concat();
        let alone = with_interchange(received.case, alone);
        let seen =
            Received::read(&alone).filter(|seen| (received.number, seen.number) == (7, 8))?;
        ["001", "021"].into_iter().find(|&note| note == seen.note())
    });
}

#[test]
fn no_check_7_shows() {
    note_shows(|received| (received.number == 7).then_some("000"));
}

#[test]
fn iea02_compared_in_part_shows() {
    type Same = fn(&[u8], &[u8]) -> bool;
    let ways: [Same; 6] = [
        |one, other| decimal(one, 9).is_some() && decimal(one, 9) == decimal(other, 9),
        |one, other| one.len() == 9 && one[1..] == other[1..],
        |one, other| one.len() == 9 && one[..8] == other[..8],
        |one, other| one.starts_with(other),
        |one, other| other.starts_with(one),
        |one, other| one.trim_ascii() == other,
    ];
    for same in ways {
        note_shows(|received| {
            let taken = received.note() == "001" && same(received.iea02(), received.isa13());
            taken.then(|| received.note_after_iea02())
        });
    }
}

#[test]
fn a_missing_ge_as_a_fault_shows() {
    note_shows(|received| {
        let segments = segments(received.case);
        let has_ge = segments.iter().any(|segment| segment[0] == b"GE");
        (received.note() == "000" && !has_ge).then_some("022")
    });
}

#[test]
fn groups_that_are_refused_as_faults_of_the_envelope_show() {
    for number in 9..=13 {
        note_shows(|received| (received.number == number).then_some("022"));
    }
}

#[test]
fn refusals_of_the_other_entry_show() {
    for number in 6..=13 {
        shows(|case| {
            let received = Received::read(case)?;
            (received.number == number).then(|| refusing(case, u32::from(number)))
        });
    }
}

#[test]
fn verdicts_that_do_not_go_with_the_note_show() {
    for (verdict, of) in [(b"A", b"R"), (b"R", b"A"), (b"E", b"R"), (b"P", b"R")] {
        writing_shows(|_, segments| {
            if segments[TA1][4] == of {
                segments[TA1][4] = verdict.to_vec();
            }
        });
    }
}

#[test]
fn note_codes_without_leading_zeros_show() {
    for bare in ["0", "1", "21", "22", "23"] {
        writing_shows(|_, segments| {
            if segments[TA1][5] == format!("{bare:0>3}").as_bytes() {
                segments[TA1][5] = bare.as_bytes().to_vec();
            }
        });
    }
}

#[test]
fn ta1_of_other_fields_shows() {
    let changes: [fn(&mut Segments); 4] = [
        |segments| segments[TA1].swap(2, 3),
        |segments| segments[TA1][2] = segments[ISA][9].clone(),
        |segments| segments[TA1][3] = segments[ISA][10].clone(),
        |segments| segments[TA1][1] = segments[ISA][13].clone(),
    ];
    for change in changes {
        writing_shows(|_, segments| change(segments));
    }
}

#[test]
fn iea_of_other_fields_shows() {
    writing_shows(|_, segments| segments[IEA][1] = b"1".to_vec());
    writing_shows(|_, segments| segments[IEA][2] = segments[TA1][1].clone());
    writing_shows(|case, segments| segments[IEA][2] = case.control.to_string().into_bytes());
}

#[test]
fn isa_of_other_fields_shows() {
    let as_received = |case: &Case, field: usize| segments(case)[0][field].clone();
    for field in [5, 6, 7, 8, 9, 10, 12, 13, 14] {
        writing_shows(|case, segments| segments[ISA][field] = as_received(case, field));
    }
    writing_shows(|_, segments| segments[ISA][15] = b"T".to_vec());
}

#[test]
fn isa14_not_looked_at_shows() {
    shows(|case| (right(case).number == 15).then(|| right(&wanting_ta1(case))));
}

#[test]
fn isa14_looked_at_too_kindly_shows() {
    for kind in [b' ', b'0', b'Y'] {
        shows(|case| {
            let taken = right(case).number == 15 && case.interchange[ISA14] == kind;
            taken.then(|| right(&wanting_ta1(case)))
        });
    }
}

#[test]
fn isa14_looked_at_in_good_envelopes_only_shows() {
    shows(|case| {
        let wanting = (right(case).number == 15).then(|| wanting_ta1(case))?;
        let bad = Received::read(&wanting)?.note() != "000";
        bad.then(|| right(&wanting))
    });
}

#[test]
fn refusal_15_for_all_shows() {
    shows(|case| (right(case).number == 0).then(|| refusing(case, 15)));
}

#[test]
fn refusal_15_before_1_to_5_shows() {
    for number in 1..=5 {
        shows(|case| {
            let unwanted = case.interchange.len() > ISA14 && !wants_ta1(case);
            (right(case).number == number && unwanted).then(|| refusing(case, 15))
        });
    }
}

#[test]
fn refusal_14_before_others_shows() {
    for number in [1, 2, 3, 4, 5, 15] {
        shows(|case| {
            let short = case.buffer_length < TA1_LENGTH;
            (right(case).number == number && short).then(|| refusing_the_buffer(case))
        });
    }
}

#[test]
fn a_buffer_of_154_bytes_refused_shows() {
    shows(|case| (case.buffer_length == TA1_LENGTH).then(|| refusing_the_buffer(case)));
}

#[test]
fn a_buffer_of_153_bytes_accepted_shows() {
    shows(|case| {
        let response = Received::read(case)?.response;
        let filling = |buffer: &mut [u8]| {
            buffer.copy_from_slice(&response[..TA1_LENGTH - 1]);
            (0, TA1_LENGTH)
        };
        (case.buffer_length == TA1_LENGTH - 1).then(|| outcome(case, LENT, filling))
    });
}

#[test]
fn refusal_14_without_the_length_shows() {
    shows(|case| (right(case).number == 14).then(|| refusing(case, 14)));
}

#[test]
fn refusal_14_by_the_length_of_the_997_shows() {
    shows(|case| {
        let of_997 = of_second(answer, case, LENT);
        (right(case).number == 0 && of_997.number == 14).then_some(of_997)
    });
}

/// Entries show that leave this behind, by not agreeing; nothing where they
/// are no other than the right ones.
fn disagreement_shows(wrong: impl Fn(&Case) -> Option<Outcomes>) {
    let disagree = |case: &Case| wrong(case).is_some_and(|wrong| !agree(case, &wrong));
    assert_eq!(shown(Family::Envelopes, disagree), SEVERAL);
}

/// Entries show of which the one with TA1 leaves this behind.
fn disagreeing_ta1_shows(wrong: impl Fn(&Case) -> Option<Outcome>) {
    disagreement_shows(|case| {
        Some(Outcomes {
            interchange: wrong(case)?,
            ..Outcomes::of_second(case, LENT)
        })
    });
}

/// The interchange as a program sees it that does not make check 6 or 8: the
/// last byte is the terminator, and IEA is right.
fn unchecked(received: &Received) -> Case {
    let mut interchange = received.case.interchange.clone();
    let [separator, terminator] = [3, 105].map(|at| interchange[at]);
    if let Some(last) = interchange.last_mut() {
        *last = terminator;
    }
    let mut segments = cut(&interchange, separator, terminator);
    let last = segments.len() - 2;
    segments[last] = vec![b"IEA".to_vec(), b"1".to_vec(), received.isa13().to_vec()];
    with_interchange(received.case, joined(&segments, separator, terminator))
}

#[test]
fn the_right_entries_agree() {
    for index in 0..20_000 {
        let case = Case::make(super::SEED, index);
        let outcomes = Outcomes::of_second(&case, LENT);
        assert!(agree(&case, &outcomes), "{index}");
    }
}

#[test]
fn a_997_where_ta1_says_r_does_not_agree() {
    for number in [6, 8] {
        disagreement_shows(|case| {
            let received = Received::read(case).filter(|received| received.number == number)?;
            let acknowledgment = of_second(answer, &unchecked(&received), LENT);
            (acknowledgment.number == 0).then(|| Outcomes {
                acknowledgment,
                interchange: right(case),
            })
        });
    }
}

#[test]
fn verdict_a_where_the_other_entry_refuses_the_envelope_does_not_agree() {
    for number in 6..=8 {
        disagreeing_ta1_shows(|case| {
            let received = Received::read(case).filter(|received| received.number == number)?;
            Some(received.telling("000"))
        });
    }
}

#[test]
fn verdict_r_where_the_other_entry_does_not_refuse_the_envelope_does_not_agree() {
    for number in [0, 9, 10, 11, 12, 13] {
        disagreeing_ta1_shows(|case| {
            let received = Received::read(case).filter(|received| received.number == number)?;
            Some(received.telling("022"))
        });
    }
}

#[test]
fn note_codes_of_another_check_do_not_agree() {
    for (number, note) in [
        (6, "022"),
        (6, "001"),
        (6, "021"),
        (7, "023"),
        (7, "001"),
        (7, "021"),
        (8, "023"),
    ] {
        disagreeing_ta1_shows(|case| {
            let received = Received::read(case).filter(|received| received.number == number)?;
            Some(received.telling(note))
        });
    }
}

#[test]
fn refusals_of_one_entry_only_do_not_agree() {
    for number in [1, 2, 3, 4, 5, 6, 7, 8, 13, 15] {
        disagreeing_ta1_shows(|case| {
            let sound = right(case).number == 0;
            sound.then(|| refusing(case, number))
        });
    }
    disagreeing_ta1_shows(|case| (right(case).number == 5).then(|| refusing(case, 15)));
    disagreeing_ta1_shows(|case| (right(case).number == 0).then(|| refusing_the_buffer(case)));
}

#[test]
fn a_ta1_that_nobody_wants_does_not_agree() {
    disagreeing_ta1_shows(|case| (right(case).number == 15).then(|| right(&wanting_ta1(case))));
}

#[test]
fn a_ta1_in_another_isa_does_not_agree() {
    disagreeing_ta1_shows(|case| {
        let answered = of_second(answer, case, LENT).number == 0 && right(case).number == 0;
        answered.then(|| {
            let mut outcome = right(case);
            outcome.buffer_mut()[ISA14] = b'1';
            outcome
        })
    });
}
