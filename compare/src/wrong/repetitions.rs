//! Programs that are wrong about ISA11 as the repetition separator.
//!
//! Each is the second program, but sees another ISA11, another ISA12 or other
//! elements than there are, or tells other notes than it should.

use super::{response, shown, LENT, SEVERAL};
use crate::agreement::agree;
use crate::alone::each_as_alone;
use crate::outcome::{of_second, Outcomes};
use crate::segments::{cut, joined, number, Segments};
use second::generator::{Case, Family};
use second::isa::{ISA_LENGTH, SEPARATORS};
use second::refusal::Refusal;
use second::values::decimal;
use second::{answer, answer_interchange, Answer, Entry};
use std::collections::HashMap;
use std::ops::Range;

type Segment = Vec<Vec<u8>>;

const ISA11: usize = 82;
const ISA12: Range<usize> = 84..89;
const REPEATING: &[u8] = b"00402";
const NOT_REPEATING: &[u8] = b"00401";

/// A valid byte that is neither a digit nor a code of a list.
const VALID: u8 = b'X';

const ENTRIES: [Entry; 2] = [answer, answer_interchange];

fn is_separator(isa11: u8, isa12: &[u8]) -> bool {
    decimal(isa12, 5) >= Some(402) && isa11 != b'U'
}

/// ISA11 of a case that is long enough to have one.
fn isa11(case: &Case) -> Option<u8> {
    (case.interchange.len() >= ISA_LENGTH).then(|| case.interchange[ISA11])
}

/// ISA11 where it is a delimiter, be it legal or not.
fn separator(case: &Case) -> Option<u8> {
    isa11(case).filter(|&isa11| is_separator(isa11, &case.interchange[ISA12]))
}

fn with_interchange(case: &Case, interchange: Vec<u8>) -> Case {
    Case {
        interchange,
        ..case.clone()
    }
}

fn with_isa11(case: &Case, isa11: u8) -> Case {
    let mut other = case.clone();
    other.interchange[ISA11] = isa11;
    other
}

fn with_isa12(case: &Case, isa12: &[u8]) -> Case {
    let mut other = case.clone();
    other.interchange[ISA12].copy_from_slice(isa12);
    other
}

/// A program of one entry shows that answers like this; nothing where it
/// answers rightly.
fn shows_by(entry: Entry, wrong: impl Fn(&Case) -> Option<Answer>) {
    let differs = |case: &Case| wrong(case).is_some_and(|answer| answer != case.answer_by(entry));
    assert_eq!(shown(Family::Repetitions, differs), SEVERAL);
}

/// Such a program shows by either entry.
fn shows(wrong: impl Fn(&Case, Entry) -> Option<Answer>) {
    for entry in ENTRIES {
        shows_by(entry, |case| wrong(case, entry));
    }
}

/// A program shows by either entry that takes a case for another one.
fn seeing_shows(sees: impl Fn(&Case) -> Option<Case>) {
    shows(|case, entry| Some(sees(case)?.answer_by(entry)));
}

fn seeing_shows_in_997(sees: impl Fn(&Case) -> Option<Case>) {
    shows_by(answer, |case| Some(sees(case)?.answer()));
}

/// The case as a program sees it that takes ISA11 for a delimiter, or does not.
fn taken(case: &Case, as_separator: bool) -> Option<Case> {
    let isa11 = isa11(case)?;
    match (as_separator, separator(case)) {
        // Both are refused for being a letter.
        (true, None) if isa11 == b'U' && decimal(&case.interchange[ISA12], 5) >= Some(402) => {
            Some(with_isa11(case, b'V'))
        }
        (true, None) => {
            let isa12_is_good = !case.interchange[ISA12].contains(&isa11);
            isa12_is_good.then(|| with_isa12(case, REPEATING))
        }
        (false, Some(_)) => Some(with_isa12(case, NOT_REPEATING)),
        _ => None,
    }
}

/// A program shows by either entry that takes ISA11 for a delimiter by this rule.
fn rule_shows(rule: impl Fn(u8, &[u8]) -> bool) {
    seeing_shows(|case| taken(case, rule(isa11(case)?, &case.interchange[ISA12])));
}

/// A program shows that has another rule for ISA12.
fn rule_for_isa12_shows(rule: impl Fn(&[u8]) -> bool) {
    rule_shows(|isa11, isa12| isa11 != b'U' && rule(isa12));
}

/// A program shows by either entry that takes these bytes in ISA11 for text.
fn text_shows(is_text: impl Fn(u8) -> bool) {
    rule_shows(|isa11, isa12| is_separator(isa11, isa12) && !is_text(isa11));
}

fn value_of_digits(isa12: &[u8]) -> Option<u64> {
    let digits: Vec<u8> = isa12.iter().copied().filter(u8::is_ascii_digit).collect();
    decimal(&digits, 5)
}

#[test]
fn the_right_rule_never_shows() {
    let differs =
        |case: &Case| isa11(case).is_some_and(|_| taken(case, separator(case).is_some()).is_some());
    assert_eq!(shown(Family::Repetitions, differs), 0);
}

#[test]
fn another_first_isa12_shows() {
    for first in [400, 401, 403, 404, 501, 601] {
        rule_for_isa12_shows(|isa12| decimal(isa12, 5) >= Some(first));
    }
}

#[test]
fn one_isa12_alone_shows() {
    for only in [402, 601] {
        rule_for_isa12_shows(|isa12| decimal(isa12, 5) == Some(only));
    }
}

#[test]
fn isa12_compared_as_text_shows() {
    rule_for_isa12_shows(|isa12| isa12 >= REPEATING);
}

#[test]
fn isa12_not_looked_at_shows() {
    rule_for_isa12_shows(|_| true);
}

#[test]
fn isa12_that_is_no_number_taken_shows() {
    rule_for_isa12_shows(|isa12| decimal(isa12, 5).is_none_or(|value| value >= 402));
}

#[test]
fn isa12_with_spaces_taken_shows() {
    rule_for_isa12_shows(|isa12| decimal(isa12.trim_ascii(), 5) >= Some(402));
    rule_for_isa12_shows(|isa12| decimal(isa12.trim_ascii_start(), 5) >= Some(402));
    rule_for_isa12_shows(|isa12| decimal(isa12.trim_ascii_end(), 5) >= Some(402));
}

#[test]
fn isa12_with_a_sign_taken_shows() {
    rule_for_isa12_shows(|isa12| {
        let digits = isa12.strip_prefix(b"+").unwrap_or(isa12);
        decimal(digits, 5) >= Some(402)
    });
}

#[test]
fn isa12_by_its_digits_alone_shows() {
    rule_for_isa12_shows(|isa12| value_of_digits(isa12) >= Some(402));
    rule_for_isa12_shows(|isa12| {
        let digits = isa12
            .iter()
            .take_while(|byte| byte.is_ascii_digit())
            .count();
        decimal(&isa12[..digits], 5) >= Some(402)
    });
}

#[test]
fn isa12_in_part_shows() {
    for part in [1..5, 2..5] {
        rule_for_isa12_shows(|isa12| {
            decimal(isa12, 5).is_some() && decimal(&isa12[part.clone()], 5) >= Some(402)
        });
    }
}

#[test]
fn three_delimiters_in_every_interchange_show() {
    rule_shows(|_, _| false);
}

#[test]
fn u_as_a_delimiter_shows() {
    rule_shows(|_, isa12| decimal(isa12, 5) >= Some(402));
}

#[test]
fn u_in_lower_case_as_text_shows() {
    text_shows(|isa11| isa11 == b'u');
}

#[test]
fn letters_digits_and_spaces_as_text_show() {
    text_shows(|isa11| isa11.is_ascii_uppercase());
    text_shows(|isa11| isa11.is_ascii_alphabetic());
    text_shows(|isa11| isa11.is_ascii_digit());
    text_shows(|isa11| isa11 == b' ');
    text_shows(|isa11| isa11.is_ascii_alphanumeric() || isa11 == b' ');
}

#[test]
fn one_separator_alone_shows() {
    text_shows(|isa11| isa11 != b'^');
}

#[test]
fn bytes_that_cannot_be_printed_as_text_show() {
    let kinds: [fn(u8) -> bool; 6] = [
        |isa11| isa11 == 0,
        |isa11| isa11 == b'\n',
        |isa11| isa11 == 0x1E,
        |isa11| isa11 < 32,
        |isa11| isa11 == 0xFF,
        |isa11| isa11 > 126,
    ];
    for is_text in kinds {
        text_shows(is_text);
    }
}

#[test]
fn gs08_in_place_of_isa12_shows() {
    seeing_shows_in_997(|case| {
        let isa11 = isa11(case)?;
        let [separator, terminator] = delimiters(case);
        let segments = cut(&case.interchange, separator, terminator);
        let gs = segments.get(1).filter(|gs| gs[0] == b"GS")?;
        let since_402 = gs.get(8)?.as_slice() >= b"00402";
        taken(case, since_402 && isa11 != b'U')
    });
}

fn delimiters(case: &Case) -> [u8; 2] {
    [3, 105].map(|at| case.interchange[at])
}

/// The case as a program sees it to which ISA11 is a good delimiter: with a
/// byte for it that stands nowhere else.
fn with_good_isa11(case: &Case) -> Case {
    let is_unused = |byte: &u8| !case.interchange.contains(byte);
    let mut legal = (1..32).chain(127..=255);
    with_isa11(
        case,
        legal.find(is_unused).expect("a byte that is not used"),
    )
}

/// A program shows by either entry that lets this ISA11 pass check 4.
fn passing_check_4_shows(passes: impl Fn(&Case, u8) -> bool) {
    seeing_shows(|case| {
        let separator = separator(case)?;
        passes(case, separator).then(|| with_good_isa11(case))
    });
}

#[test]
fn a_fourth_delimiter_equal_to_another_let_pass_shows() {
    for other in [3, 104, 105] {
        passing_check_4_shows(|case, separator| case.interchange[other] == separator);
    }
}

#[test]
fn a_fourth_delimiter_of_any_kind_let_pass_shows() {
    passing_check_4_shows(|_, separator| separator.is_ascii_alphabetic());
    passing_check_4_shows(|_, separator| separator.is_ascii_digit());
    passing_check_4_shows(|_, separator| separator == b' ');
}

fn refusing(refusal: Refusal) -> Option<Answer> {
    Some(Answer::Refused(refusal))
}

/// A program shows by either entry that refuses such an ISA11 in check 5.
fn refusing_isa11_shows(refuses: impl Fn(u8) -> bool) {
    shows(|case, entry| {
        let refused_before = (1..=4).contains(&case.answer_by(entry).number());
        let refused = separator(case).is_some_and(&refuses) && !refused_before;
        refusing(Refusal::IsaFields).filter(|_| refused)
    });
}

#[test]
fn check_5_made_on_a_delimiter_shows() {
    refusing_isa11_shows(|_| true);
    refusing_isa11_shows(|isa11| !(32..=126).contains(&isa11));
}

#[test]
fn refusal_5_in_place_of_4_shows() {
    shows(|case, entry| {
        separator(case)?;
        let by_isa11 = with_isa12(case, NOT_REPEATING).answer_by(entry).number() != 4;
        let refused = case.answer_by(entry).number() == 4 && by_isa11;
        refusing(Refusal::IsaFields).filter(|_| refused)
    });
}

#[test]
fn refusal_4_in_place_of_5_for_text_shows() {
    shows(|case, entry| {
        let isa11 = isa11(case)?;
        let equal = [3, 104, 105]
            .map(|at| case.interchange[at])
            .contains(&isa11);
        let refused = case.answer_by(entry).number() == 5 && separator(case).is_none() && equal;
        refusing(Refusal::Delimiters).filter(|_| refused)
    });
}

#[test]
fn isa12_that_holds_isa11_refused_shows() {
    shows(|case, entry| {
        let isa11 = isa11(case)?;
        let held = separator(case).is_none() && case.interchange[ISA12].contains(&isa11);
        let passed = !(1..=5).contains(&case.answer_by(entry).number());
        refusing(Refusal::IsaFields).filter(|_| held && passed)
    });
}

#[test]
fn a_separator_in_another_field_of_isa_let_pass_shows() {
    let unjudged = |case: &Case, fields: &[usize]| {
        let separator = separator(case)?;
        let mut seen = case.clone();
        for field in fields {
            for at in SEPARATORS[field - 1] + 1..SEPARATORS[*field] {
                if seen.interchange[at] == separator {
                    seen.interchange[at] = VALID;
                }
            }
        }
        Some(seen)
    };
    for field in [1, 2, 3, 4, 5, 6, 7, 8, 9, 10, 14] {
        seeing_shows(|case| unjudged(case, &[field]));
    }
}

/// A case that passes checks 1 to 5 with four delimiters.
struct Repeating<'a> {
    case: &'a Case,
    separator: u8,
    /// Behind ISA. Behind the last terminator stands one more, empty if all is
    /// well.
    segments: Segments,
}

impl<'a> Repeating<'a> {
    fn read(case: &'a Case) -> Option<Self> {
        let separator = separator(case)?;
        if (1..=5).contains(&case.answer().number()) {
            return None;
        }
        let [element, terminator] = delimiters(case);
        Some(Repeating {
            case,
            separator,
            segments: cut(&case.interchange[ISA_LENGTH..], element, terminator),
        })
    }

    fn with(&self, segments: &Segments) -> Case {
        let [element, terminator] = delimiters(self.case);
        let isa = &self.case.interchange[..ISA_LENGTH];
        let interchange = [isa, &joined(segments, element, terminator)].concat();
        with_interchange(self.case, interchange)
    }

    /// The case with the elements of sets changed that a table may have.
    fn with_elements(&self, change: impl Fn(&[u8], usize, &mut Vec<u8>)) -> Case {
        let mut segments = self.segments.clone();
        for segment in &mut segments {
            let id = segment[0].clone();
            let places = places(&id);
            for (place, element) in segment.iter_mut().enumerate() {
                if places.contains(&place) {
                    change(&id, place, element);
                }
            }
        }
        self.with(&segments)
    }

    /// The same, for the elements that hold the separator.
    fn with_repeated(&self, change: impl Fn(&[u8], usize, &mut Vec<u8>)) -> Case {
        self.with_elements(|id, place, element| {
            if element.contains(&self.separator) {
                change(id, place, element);
            }
        })
    }

    fn exchange(&self, element: &mut [u8], byte: u8) {
        for found in element {
            if *found == self.separator {
                *found = byte;
            }
        }
    }

    /// A byte that is invalid, and no delimiter.
    fn invalid(&self) -> u8 {
        let delimiters = [3, ISA11, 104, 105].map(|at| self.case.interchange[at]);
        let mut bytes = 127..=255;
        bytes.find(|byte| !delimiters.contains(byte)).expect("one")
    }

    fn is_invalid(&self, byte: u8) -> bool {
        !(32..=126).contains(&byte) || byte == self.case.interchange[104]
    }

    /// The code that each repeated element would have if its separators were
    /// valid bytes, by the index of its segment and its place.
    fn codes_as_text(&self) -> HashMap<(usize, usize), usize> {
        let text = self.with_repeated(|_, _, element| self.exchange(element, VALID));
        let mut codes = HashMap::new();
        if let Some(response) = response(&text, &text.interchange) {
            self.each_note(&response, |index, note| {
                if note[0] == b"AK4" {
                    codes.insert((index, value(&note[1])), value(&note[3]));
                }
            });
        }
        codes
    }

    /// Each AK3 and AK4 of a response, with the index of the segment that it is
    /// on; AK3 for a segment that is missing has the one that follows.
    fn each_note(&self, response: &[u8], mut see: impl FnMut(usize, &Segment)) {
        let [element, terminator] = delimiters(self.case);
        let mut headers = (0..self.segments.len()).filter(|&at| self.segments[at][0] == b"ST");
        let (mut header, mut index) = (0, 0);
        for segment in cut(response, element, terminator) {
            match segment[0].as_slice() {
                b"AK2" => header = headers.next().expect("a set"),
                b"AK3" => {
                    index = header + value(&segment[2]) - 1;
                    see(index, &segment);
                }
                b"AK4" => see(index, &segment),
                _ => {}
            }
        }
    }
}

/// The places of a segment that a table has and refusals have not seen to.
fn places(id: &[u8]) -> Range<usize> {
    match id {
        b"ST" => 3..4,
        b"B1" => 1..5,
        b"L11" => 1..4,
        b"K1" | b"SE" => 1..3,
        _ => 0..0,
    }
}

fn value(number: &[u8]) -> usize {
    std::str::from_utf8(number).unwrap().parse().unwrap()
}

/// A program shows that sees other segments in cases of four delimiters.
fn segments_show(change: impl Fn(&Repeating, &mut Segments)) {
    seeing_shows_in_997(|case| {
        let repeating = Repeating::read(case)?;
        let mut segments = repeating.segments.clone();
        change(&repeating, &mut segments);
        Some(repeating.with(&segments))
    });
}

/// A program shows that sees other elements where they hold the separator.
fn repeated_elements_show(change: impl Fn(&Repeating, &[u8], usize, &mut Vec<u8>)) {
    seeing_shows_in_997(|case| {
        let repeating = Repeating::read(case)?;
        let seen =
            repeating.with_repeated(|id, place, element| change(&repeating, id, place, element));
        Some(seen)
    });
}

/// A program shows to which the separator is valid in this place of a segment.
fn valid_in_header_shows(id: &[u8], place: usize) {
    segments_show(|repeating, segments| {
        for segment in segments.iter_mut().filter(|segment| segment[0] == id) {
            if let Some(element) = segment.get_mut(place) {
                repeating.exchange(element, VALID);
            }
        }
    });
}

#[test]
fn a_separator_in_gs_let_pass_shows() {
    for place in [2, 3, 7, 8] {
        valid_in_header_shows(b"GS", place);
    }
}

#[test]
fn a_separator_in_st02_let_pass_shows() {
    valid_in_header_shows(b"ST", 2);
}

/// A program shows that looks at the first repetition of a trailer alone.
fn first_of_trailer_shows(id: &[u8], place: usize) {
    segments_show(|repeating, segments| {
        for segment in segments.iter_mut().filter(|segment| segment[0] == id) {
            if let Some(element) = segment.get_mut(place) {
                keep_first(repeating.separator, element);
            }
        }
    });
}

fn keep_first(separator: u8, element: &mut Vec<u8>) {
    let end = element.iter().position(|&byte| byte == separator);
    element.truncate(end.unwrap_or(element.len()));
}

#[test]
fn trailers_read_up_to_the_separator_show() {
    for (id, place) in [("GE", 1), ("GE", 2), ("IEA", 1), ("IEA", 2)] {
        first_of_trailer_shows(id.as_bytes(), place);
    }
}

#[test]
fn trailers_of_the_envelope_read_up_to_the_separator_show_in_ta1() {
    shows_by(answer_interchange, |case| {
        let repeating = Repeating::read(case)?;
        let mut segments = repeating.segments.clone();
        for element in segments.iter_mut().filter(|iea| iea[0] == b"IEA").flatten() {
            keep_first(repeating.separator, element);
        }
        Some(repeating.with(&segments).answer_interchange())
    });
}

#[test]
fn a_separator_that_cuts_shows() {
    for delimiter in [3, 105] {
        seeing_shows_in_997(|case| {
            let repeating = Repeating::read(case)?;
            let mut seen = case.clone();
            let cuts = case.interchange[delimiter];
            repeating.exchange(&mut seen.interchange[ISA_LENGTH..], cuts);
            Some(seen)
        });
    }
}

#[test]
fn one_repetition_alone_looked_at_shows() {
    repeated_elements_show(|repeating, _, _, element| keep_first(repeating.separator, element));
    repeated_elements_show(|repeating, _, _, element| {
        element.reverse();
        keep_first(repeating.separator, element);
        element.reverse();
    });
}

#[test]
fn separators_left_out_show() {
    repeated_elements_show(|repeating, _, _, element| {
        element.retain(|&byte| byte != repeating.separator);
    });
}

#[test]
fn separators_at_an_end_left_out_show() {
    repeated_elements_show(|repeating, _, _, element| {
        while element.last() == Some(&repeating.separator) {
            element.pop();
        }
    });
    repeated_elements_show(|repeating, _, _, element| {
        while element.first() == Some(&repeating.separator) {
            element.remove(0);
        }
    });
}

#[test]
fn separators_far_behind_not_seen_show() {
    for first in [30, 99] {
        repeated_elements_show(|repeating, _, _, element| {
            let seen = element.len().min(first);
            repeating.exchange(&mut element[seen..], VALID);
        });
    }
}

#[test]
fn lone_separators_as_absent_show() {
    repeated_elements_show(|repeating, _, _, element| {
        if element[..] == [repeating.separator] {
            element.clear();
        }
    });
    repeated_elements_show(|repeating, _, _, element| {
        if element.iter().all(|&byte| byte == repeating.separator) {
            element.clear();
        }
    });
}

#[test]
fn lone_separators_as_absent_for_syntax_notes_show() {
    let missing = |case: &Case| -> Option<Segments> {
        let [element, terminator] = delimiters(case);
        let segments = cut(&response(case, &case.interchange)?, element, terminator);
        let is_missing = |segment: &Segment| segment[0] == b"AK4" && segment[3] == b"2";
        Some(segments.into_iter().filter(is_missing).collect())
    };
    let differs = |case: &Case| {
        let Some(repeating) = Repeating::read(case) else {
            return false;
        };
        let seen = repeating.with_repeated(|_, _, element| {
            if element[..] == [repeating.separator] {
                element.clear();
            }
        });
        missing(case) != missing(&seen)
    };
    assert_eq!(shown(Family::Repetitions, differs), SEVERAL);
}

#[test]
fn code_6_in_place_of_12_shows() {
    for wrong in ["ST", "B1", "L11", "K1", "SE"] {
        repeated_elements_show(|repeating, id, _, element| {
            if id == wrong.as_bytes() {
                repeating.exchange(element, repeating.invalid());
            }
        });
    }
}

#[test]
fn code_6_for_a_number_with_the_separator_shows() {
    repeated_elements_show(|repeating, id, place, element| {
        if (id, place) == (b"SE", 1) {
            repeating.exchange(element, VALID);
        }
    });
}

#[test]
fn no_code_for_the_separator_in_one_segment_shows() {
    for wrong in ["ST", "B1", "L11", "K1", "SE"] {
        repeated_elements_show(|repeating, id, _, element| {
            if id == wrong.as_bytes() {
                repeating.exchange(element, VALID);
            }
        });
    }
}

#[test]
fn code_12_after_6_shows() {
    repeated_elements_show(|repeating, _, _, element| {
        if element.iter().any(|&byte| is_bad(repeating, byte)) {
            element.retain(|&byte| byte != repeating.separator);
        }
    });
}

fn is_bad(repeating: &Repeating, byte: u8) -> bool {
    byte != repeating.separator && repeating.is_invalid(byte)
}

#[test]
fn the_first_bad_byte_deciding_between_6_and_12_shows() {
    repeated_elements_show(|repeating, _, _, element| {
        let separator = element.iter().position(|&byte| byte == repeating.separator);
        let bad = element.iter().position(|&byte| is_bad(repeating, byte));
        if bad.is_some() && bad < separator {
            element.retain(|&byte| byte != repeating.separator);
        }
    });
}

#[test]
fn code_12_after_another_code_shows() {
    for first in [4, 5, 6, 7, 8] {
        seeing_shows_in_997(|case| {
            let repeating = Repeating::read(case)?;
            let codes = repeating.codes_as_text();
            let mut segments = repeating.segments.clone();
            for (&(index, place), &code) in &codes {
                let element = segments[index].get_mut(place);
                if let Some(element) = element.filter(|_| code == first) {
                    repeating.exchange(element, VALID);
                }
            }
            Some(repeating.with(&segments))
        });
    }
}

#[test]
fn code_12_for_components_shows() {
    seeing_shows_in_997(|case| {
        let repeating = Repeating::read(case)?;
        let component = case.interchange[104];
        let seen = repeating.with_elements(|_, _, element| {
            for byte in element.iter_mut().filter(|byte| **byte == component) {
                *byte = repeating.separator;
            }
        });
        Some(seen)
    });
}

#[test]
fn a_minus_as_a_sign_in_spite_of_isa11_shows() {
    seeing_shows_in_997(|case| {
        let repeating = Repeating::read(case).filter(|repeating| repeating.separator == b'-')?;
        let other = with_good_isa11(case).interchange[ISA11];
        let mut seen = repeating.with_repeated(|id, place, element| {
            let sign = usize::from(id == b"SE" && place == 1);
            repeating.exchange(&mut element[sign..], other);
        });
        seen.interchange[ISA11] = other;
        Some(seen)
    });
}

#[test]
fn ids_read_up_to_the_separator_show() {
    segments_show(|repeating, segments| {
        for segment in segments {
            keep_first(repeating.separator, &mut segment[0]);
        }
    });
}

/// The case as a program sees it to which the separator is a valid byte in all
/// groups but the first.
fn known_in_the_first_group(case: &Case) -> Option<Case> {
    let repeating = Repeating::read(case)?;
    let mut segments = repeating.segments.clone();
    let starts = |segment: &Segment| segment[0] == b"GS";
    let second = segments.iter().skip(1).position(starts)? + 1;
    for element in segments[second..].iter_mut().flatten() {
        repeating.exchange(element, VALID);
    }
    Some(repeating.with(&segments))
}

#[test]
fn a_separator_known_in_the_first_group_alone_shows() {
    seeing_shows_in_997(known_in_the_first_group);
    let program = |case: &Case| {
        let seen = known_in_the_first_group(case);
        of_second(answer, seen.as_ref().unwrap_or(case), LENT)
    };
    let differs = |case: &Case| !each_as_alone(program, case, &program(case));
    assert_eq!(shown(Family::Repetitions, differs), SEVERAL);
}

/// What one AK3 or AK4 is on.
struct Noted<'a> {
    /// As received: its id, then its elements.
    segment: &'a Segment,
    separator: u8,
    /// Nothing for AK3.
    place: Option<usize>,
    /// Of AK4, or the first of AK3.
    code: usize,
    /// The code that the element would have if its separators were valid.
    code_as_text: Option<usize>,
}

impl Noted<'_> {
    fn is_on_repetition(&self) -> bool {
        self.place.is_some() && self.code == 12
    }

    fn value(&self) -> &[u8] {
        &self.segment[self.place.expect("a place")]
    }

    /// Whether one of the elements from this place on holds the separator.
    fn repeats_from(&self, place: usize) -> bool {
        let mut elements = self.segment.iter().skip(place);
        elements.any(|element| element.contains(&self.separator))
    }
}

/// A program shows that writes these segments in place of an AK3 or AK4.
fn notes_show(tell: impl Fn(&Noted, &Segment) -> Vec<Segment>) {
    shows_by(answer, |case| {
        let repeating = Repeating::read(case)?;
        let right = response(case, &case.interchange)?;
        let codes = repeating.codes_as_text();
        let mut told = Vec::new();
        repeating.each_note(&right, |index, note| {
            let place = (note[0] == b"AK4").then(|| value(&note[1]));
            let noted = Noted {
                segment: &repeating.segments[index],
                separator: repeating.separator,
                place,
                code: value(&note[if place.is_some() { 3 } else { 4 }]),
                code_as_text: place.and_then(|place| codes.get(&(index, place)).copied()),
            };
            told.push(tell(&noted, note));
        });
        Some(sending(case, &with_notes(case, &right, told)))
    });
}

/// A response with other segments in place of each AK3 and AK4, and the right
/// counts.
fn with_notes(case: &Case, response: &[u8], notes: Vec<Vec<Segment>>) -> Vec<u8> {
    let [element, terminator] = delimiters(case);
    let mut notes = notes.into_iter();
    let mut sent = Segments::new();
    let mut start = 0;
    for mut segment in cut(response, element, terminator) {
        match segment[0].as_slice() {
            b"AK3" | b"AK4" => {
                sent.extend(notes.next().expect("a note"));
                continue;
            }
            b"ST" => start = sent.len(),
            b"SE" => segment[1] = number(sent.len() - start + 1),
            _ => {}
        }
        sent.push(segment);
    }
    joined(&sent, element, terminator)
}

fn sending(case: &Case, response: &[u8]) -> Answer {
    let needed = response.len();
    if needed > case.buffer_length {
        Answer::Refused(Refusal::BufferTooShort { needed })
    } else {
        Answer::Acknowledged(response.to_vec())
    }
}

/// A program shows that has more or other AK4 for code 12.
fn notes_on_repetitions_show(tell: impl Fn(&Noted, &Segment) -> Vec<Segment>) {
    notes_show(|noted, note| {
        if noted.is_on_repetition() {
            tell(noted, note)
        } else {
            vec![note.clone()]
        }
    });
}

fn with_code(note: &Segment, code: usize) -> Segment {
    let mut other = note.clone();
    other[3] = number(code);
    other
}

#[test]
fn the_right_notes_never_show() {
    for index in 0..50_000 {
        if Family::of(super::SEED, index) != Family::Repetitions {
            continue;
        }
        let case = Case::make(super::SEED, index);
        let Some(repeating) = Repeating::read(&case) else {
            continue;
        };
        assert_eq!(repeating.with(&repeating.segments), case, "{index}");
        if let Some(right) = response(&case, &case.interchange) {
            let mut notes = Vec::new();
            repeating.each_note(&right, |_, note| notes.push(vec![note.clone()]));
            let told = with_notes(&case, &right, notes);
            assert_eq!(sending(&case, &told), case.answer(), "{index}");
        }
    }
}

#[test]
fn another_code_beside_12_shows() {
    for beside in [4, 5, 6, 7, 8] {
        notes_on_repetitions_show(|noted, note| {
            let code = noted.code_as_text.filter(|&code| code == beside);
            let other = code.map(|code| with_code(note, code));
            other.into_iter().chain([note.clone()]).collect()
        });
    }
}

#[test]
fn other_codes_for_repetitions_show() {
    for code in [3, 6, 11, 13] {
        notes_on_repetitions_show(|_, note| vec![with_code(note, code)]);
    }
}

#[test]
fn values_under_code_12_show() {
    notes_on_repetitions_show(|noted, note| {
        let value = noted.value();
        let shown = value[..value.len().min(99)].to_vec();
        vec![[note.as_slice(), &[shown]].concat()]
    });
    notes_on_repetitions_show(|noted, note| {
        let mut shown = noted.value().to_vec();
        keep_first(noted.separator, &mut shown);
        shown.truncate(99);
        let shown = (!shown.is_empty()).then_some(shown);
        vec![note.iter().cloned().chain(shown).collect()]
    });
}

#[test]
fn a_separator_behind_code_12_shows() {
    notes_on_repetitions_show(|_, note| vec![[note.as_slice(), &[Vec::new()]].concat()]);
}

#[test]
fn code_12_for_each_repetition_shows() {
    notes_on_repetitions_show(|noted, note| {
        let mut value = noted.value().iter();
        let mut repetitions = Vec::new();
        while value.any(|&byte| byte == noted.separator) {
            repetitions.push(note.clone());
        }
        repetitions
    });
}

#[test]
fn code_12_once_in_a_segment_shows() {
    notes_on_repetitions_show(|noted, note| {
        let place = noted.place.expect("a place");
        let before = &noted.segment[places(&noted.segment[0]).start..place];
        let again = before
            .iter()
            .any(|element| element.contains(&noted.separator));
        if again {
            Vec::new()
        } else {
            vec![note.clone()]
        }
    });
}

#[test]
fn code_12_beyond_the_table_shows() {
    let is_surplus = |noted: &Noted| {
        let place = noted.place.filter(|_| noted.code == 3);
        place.is_some_and(|place| noted.repeats_from(place))
    };
    notes_show(|noted, note| {
        let code = if is_surplus(noted) { 12 } else { noted.code };
        match noted.place {
            Some(_) => vec![with_code(note, code)],
            None => vec![note.clone()],
        }
    });
    notes_show(|noted, note| {
        let beside = is_surplus(noted).then(|| with_code(note, 12));
        std::iter::once(note.clone()).chain(beside).collect()
    });
}

#[test]
fn code_12_in_segments_without_element_checks_shows() {
    for code in [1, 6] {
        notes_show(|noted, note| {
            let unchecked = noted.place.is_none() && noted.code == code;
            let mut segment = note.clone();
            if unchecked && noted.repeats_from(1) {
                segment.push(b"8".to_vec());
            }
            vec![segment]
        });
    }
}

/// A program shows that has set codes by the first repetition of this element
/// of SE, though it has code 12.
fn set_codes_by_the_first_show(place: usize, code: &[u8]) {
    shows_by(answer, |case| {
        let repeating = Repeating::read(case)?;
        let seen = repeating.with_repeated(|id, at, element| {
            if (id, at) == (b"SE", place) {
                keep_first(repeating.separator, element);
            }
        });
        let [element, terminator] = delimiters(case);
        let parts = |bytes: &[u8]| cut(bytes, element, terminator);
        let mut sent = parts(&response(case, &case.interchange)?);
        let seen = parts(&response(&seen, &seen.interchange)?);
        let is_ak5 = |segment: &Segment| segment[0] == b"AK5";
        let of_seen = seen.iter().filter(|segment| is_ak5(segment));
        let of_sent = sent.iter_mut().filter(|segment| is_ak5(segment));
        for (ak5, seen) in of_sent.zip(of_seen) {
            ak5.retain(|part| part != code || seen.iter().any(|part| part == code));
        }
        Some(sending(case, &joined(&sent, element, terminator)))
    });
}

#[test]
fn set_codes_by_the_first_repetition_of_se_show() {
    set_codes_by_the_first_show(1, b"4");
    set_codes_by_the_first_show(2, b"3");
}

/// A program shows by either entry that writes other fields into ISA.
fn isa_shows(change: impl Fn(&Case, &mut [u8])) {
    shows(|case, entry| {
        let mut response = case.answer_by(entry).response().to_vec();
        if response.is_empty() {
            return None;
        }
        change(case, &mut response);
        Some(Answer::Acknowledged(response))
    });
}

#[test]
fn isa11_and_isa12_of_the_partner_in_the_response_show() {
    isa_shows(|case, response| response[ISA11] = case.interchange[ISA11]);
    isa_shows(|case, response| {
        if let Some(separator) = separator(case) {
            response[ISA11] = separator;
        }
    });
    isa_shows(|case, response| {
        if separator(case).is_some() {
            response[ISA12].copy_from_slice(&case.interchange[ISA12]);
        }
    });
    isa_shows(|case, response| {
        if separator(case).is_some() {
            response[ISA12].copy_from_slice(REPEATING);
        }
    });
}

#[test]
fn a_separator_known_to_one_entry_alone_does_not_agree() {
    let with_three = |case: &Case| {
        let seen = separator(case).map(|_| with_isa12(case, NOT_REPEATING));
        Outcomes::of_second(seen.as_ref().unwrap_or(case), LENT)
    };
    let known_to_997 = |case: &Case| Outcomes {
        interchange: with_three(case).interchange,
        ..Outcomes::of_second(case, LENT)
    };
    let known_to_ta1 = |case: &Case| Outcomes {
        acknowledgment: with_three(case).acknowledgment,
        ..Outcomes::of_second(case, LENT)
    };
    let disagree = |outcomes: &dyn Fn(&Case) -> Outcomes| {
        shown(Family::Repetitions, |case| !agree(case, &outcomes(case)))
    };
    assert_eq!(disagree(&known_to_997), SEVERAL);
    assert_eq!(disagree(&known_to_ta1), SEVERAL);
}
