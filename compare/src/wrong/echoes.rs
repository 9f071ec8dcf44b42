//! Programs that are wrong about the values in AK4.
//!
//! Each is the second program, but for what it tells behind an AK4's code.

use super::{differs, response, shown, SEVERAL};
use crate::segments::{cut, joined};
use second::generator::{Case, Family};

/// What one AK4 speaks of.
struct Finding<'a> {
    /// The segment as received: its id, then its elements.
    segment: &'a [Vec<u8>],
    place: usize,
    code: usize,
}

impl Finding<'_> {
    /// The first bytes of the element at this place, if it has any.
    fn beginning(&self, place: usize, most: usize) -> Option<Vec<u8>> {
        let value = self.segment.get(place).filter(|value| !value.is_empty())?;
        Some(value[..value.len().min(most)].to_vec())
    }

    fn own_beginning(&self, most: usize) -> Option<Vec<u8>> {
        self.beginning(self.place, most)
    }

    fn is_se01(&self) -> bool {
        self.segment[0] == b"SE" && self.place == 1
    }

    /// AK404 as it should be.
    fn right(&self) -> Option<Vec<u8>> {
        let is_shown = matches!(self.code, 4 | 5 | 7 | 8);
        self.own_beginning(99).filter(|_| is_shown)
    }
}

/// The response of a program that has this for AK404.
fn telling(case: &Case, echo: impl Fn(&Finding) -> Option<Vec<u8>>) -> Option<Vec<u8>> {
    let right = response(case, &case.interchange)?;
    let (separator, terminator) = (right[3], right[105]);
    let received = cut(&case.interchange, separator, terminator);
    let mut sets = (0..received.len()).filter(|&index| received[index][0] == b"ST");
    let mut sent = cut(&right, separator, terminator);
    let (mut header, mut position) = (0, 0);
    for segment in &mut sent {
        match segment[0].as_slice() {
            b"AK2" => header = sets.next()?,
            b"AK3" => position = value(&segment[2]),
            b"AK4" => {
                let finding = Finding {
                    segment: &received[header + position - 1],
                    place: value(&segment[1]),
                    code: value(&segment[3]),
                };
                segment.truncate(4);
                segment.extend(echo(&finding));
            }
            _ => {}
        }
    }
    Some(joined(&sent, separator, terminator))
}

fn value(number: &[u8]) -> usize {
    std::str::from_utf8(number).unwrap().parse().unwrap()
}

/// How many of the cases show a program that has this for AK404.
fn shown_by(echo: impl Fn(&Finding) -> Option<Vec<u8>>) -> usize {
    shown(Family::Echoes, |case| {
        telling(case, &echo).is_some_and(|response| differs(case, &response))
    })
}

fn shows(echo: impl Fn(&Finding) -> Option<Vec<u8>>) {
    assert_eq!(shown_by(echo), SEVERAL);
}

#[test]
fn the_right_values_never_show() {
    assert_eq!(shown_by(|finding| finding.right()), 0);
}

#[test]
fn no_values_show() {
    shows(|_| None);
}

#[test]
fn values_cut_elsewhere_show() {
    for most in [98, 100, usize::MAX] {
        let wrong = |finding: &Finding| {
            finding.right()?;
            finding.own_beginning(most)
        };
        assert_eq!(shown_by(wrong), SEVERAL, "{most}");
    }
}

#[test]
fn values_under_codes_that_show_none_show() {
    for code in [3, 6] {
        let wrong = |finding: &Finding| {
            let shown = finding.own_beginning(99);
            shown.filter(|_| finding.code == code).or(finding.right())
        };
        assert_eq!(shown_by(wrong), SEVERAL, "{code}");
    }
}

#[test]
fn a_bad_number_of_printable_bytes_shows() {
    let printable = |value: &Vec<u8>| value.iter().all(|byte| (32..=126).contains(byte));
    shows(|finding| match finding.code {
        6 if finding.is_se01() => finding.own_beginning(99).filter(printable),
        _ => finding.right(),
    });
}

#[test]
fn each_code_left_without_its_value_shows() {
    for code in [4, 5, 7, 8] {
        let wrong = |finding: &Finding| finding.right().filter(|_| finding.code != code);
        assert_eq!(shown_by(wrong), SEVERAL, "{code}");
    }
}

#[test]
fn a_minus_lost_shows() {
    shows(|finding| {
        let right = finding.right()?;
        match right.strip_prefix(b"-").filter(|_| finding.is_se01()) {
            Some(digits) => (!digits.is_empty()).then(|| digits.to_vec()),
            None => Some(right),
        }
    });
}

#[test]
fn a_minus_not_counted_at_the_cut_shows() {
    shows(|finding| {
        let right = finding.right()?;
        let signed = finding.is_se01() && right[0] == b'-';
        finding.own_beginning(if signed { 100 } else { 99 })
    });
}

#[test]
fn values_of_the_neighbours_show() {
    for neighbour in [-1, 1] {
        let wrong = |finding: &Finding| {
            finding.right()?;
            finding.beginning(finding.place.checked_add_signed(neighbour)?, 99)
        };
        assert_eq!(shown_by(wrong), SEVERAL, "{neighbour}");
    }
}

#[test]
fn spaces_left_off_show() {
    shows(|finding| {
        let right = finding.right()?;
        let bare = right.trim_ascii_end();
        (!bare.is_empty()).then(|| bare.to_vec())
    });
}

#[test]
fn a_separator_behind_the_code_shows() {
    shows(|finding| Some(finding.right().unwrap_or_default()));
}

/// The case as a program sees it that takes each byte after the cut for valid.
fn unjudged_after_the_cut(case: &Case) -> Case {
    let [separator, component, terminator] = [3, 104, 105].map(|at| case.interchange[at]);
    let mut segments = cut(&case.interchange, separator, terminator);
    for element in segments.iter_mut().flatten() {
        for byte in element.iter_mut().skip(99) {
            if !(32..=126).contains(byte) || *byte == component {
                *byte = b'0';
            }
        }
    }
    Case {
        interchange: joined(&segments, separator, terminator),
        ..case.clone()
    }
}

#[test]
fn code_6_judged_up_to_the_cut_shows() {
    let differs = |case: &Case| unjudged_after_the_cut(case).answer() != case.answer();
    assert_eq!(shown(Family::Echoes, differs), SEVERAL);
}

#[test]
fn refusal_14_reckoned_without_the_values_shows() {
    let differs = |case: &Case| {
        let bare = telling(case, |_| None);
        case.answer().number() == 14 && bare.is_some_and(|bare| bare.len() <= case.buffer_length)
    };
    assert_eq!(shown(Family::Echoes, differs), SEVERAL);
    assert_eq!(shown(Family::ManyEchoes, differs), SEVERAL);
}
