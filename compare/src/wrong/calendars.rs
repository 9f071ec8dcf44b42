//! Programs with a wrong calendar in one of the places that rule DT looks at.
//!
//! Each is the second program, but sees a day where its calendar has one, and
//! none where it has none.

use super::{shown, SEVERAL};
use crate::segments::{cut, joined};
use second::generator::{Case, Family};
use second::values::{decimal, is_date};

/// How many days a month has.
type Calendar = fn(year: u64, month: u64) -> u64;

#[derive(Debug, Clone, Copy, PartialEq, Eq)]
enum Place {
    Caller,
    Gs04,
    B103,
}

const PLACES: [Place; 3] = [Place::Caller, Place::Gs04, Place::B103];

const A_DAY: &[u8] = b"20240315";
const NO_DAY: &[u8] = b"20240300";

fn shows(calendar: Calendar) {
    for place in PLACES {
        let differs = |case: &Case| seen(case, place, calendar).answer() != case.answer();
        assert_eq!(shown(Family::MonthEnds, differs), SEVERAL, "{place:?}");
    }
}

/// The case as a program sees it that has this calendar in this place.
fn seen(case: &Case, place: Place, calendar: Calendar) -> Case {
    let mut seen = case.clone();
    if place == Place::Caller {
        let date = format!("{:08}", case.date);
        let taken = decimal(taken_for(date.as_bytes(), calendar), 8);
        seen.date = taken.unwrap() as u32;
        return seen;
    }
    let (separator, terminator) = (case.interchange[3], case.interchange[105]);
    let mut segments = cut(&case.interchange, separator, terminator);
    for segment in &mut segments {
        let element = match (place, segment[0].as_slice()) {
            (Place::Gs04, b"GS") => segment.get_mut(4),
            (Place::B103, b"B1") => segment.get_mut(3),
            _ => None,
        };
        if let Some(date) = element {
            *date = taken_for(date, calendar).to_vec();
        }
    }
    seen.interchange = joined(&segments, separator, terminator);
    seen
}

/// Another date where the calendar is wrong about this one.
fn taken_for(date: &[u8], calendar: Calendar) -> &[u8] {
    let Some(number) = decimal(date, 8).filter(|_| date.len() == 8) else {
        return date;
    };
    let (year, month, day) = (number / 10_000, number / 100 % 100, number % 100);
    let has_day = (1..=12).contains(&month) && (1..=calendar(year, month)).contains(&day);
    match (has_day, is_date(date)) {
        (true, false) => A_DAY,
        (false, true) => NO_DAY,
        _ => date,
    }
}

/// The right length of a month, in a year that is a leap year or not.
fn length(month: u64, in_leap_year: bool) -> u64 {
    match month {
        2 if in_leap_year => 29,
        2 => 28,
        4 | 6 | 9 | 11 => 30,
        _ => 31,
    }
}

fn is_leap(year: u64) -> bool {
    is_date(format!("{year:04}0229").as_bytes())
}

#[test]
fn the_right_calendar_never_shows() {
    for place in PLACES {
        let right: Calendar = |year, month| length(month, is_leap(year));
        let differs = |case: &Case| seen(case, place, right) != *case;
        assert_eq!(shown(Family::MonthEnds, differs), 0, "{place:?}");
    }
}

#[test]
fn hundreds_as_leap_years_show() {
    shows(|year, month| length(month, year % 4 == 0));
}

#[test]
fn four_hundreds_as_common_years_show() {
    shows(|year, month| length(month, year % 4 == 0 && year % 100 != 0));
}

#[test]
fn year_0000_as_a_common_year_shows() {
    shows(|year, month| length(month, year != 0 && is_leap(year)));
}

#[test]
fn no_leap_years_show() {
    shows(|_, month| length(month, false));
}

#[test]
fn months_of_30_days_show() {
    shows(|_, _| 30);
}

#[test]
fn months_of_31_days_show() {
    shows(|_, _| 31);
}

#[test]
fn odd_months_of_31_days_and_even_ones_of_30_show() {
    shows(|year, month| match month {
        2 => length(month, is_leap(year)),
        _ => 30 + month % 2,
    });
}

#[test]
fn isa09_judged_by_the_calendar_shows() {
    let differs = |case: &Case| {
        let mut seen = case.clone();
        let isa09 = &mut seen.interchange[70..76];
        if !is_date(&[b"20", &*isa09].concat()) {
            isa09.fill(0);
        }
        seen.answer() != case.answer()
    };
    assert_eq!(shown(Family::MonthEnds, differs), SEVERAL);
}
