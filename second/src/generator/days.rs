//! Days of the calendar, and what stands around the ends of months.

use super::draft::{set_element, Draft};
use super::prng::Prng;

struct Month {
    year: usize,
    month: usize,
    days: usize,
}

impl Month {
    /// Any month, February in nearly half of the cases.
    fn draw(prng: &mut Prng) -> Self {
        let (year, february) = year(prng);
        let month = if prng.percent(40) {
            2
        } else {
            prng.between(1, 12)
        };
        let days = [31, february, 31, 30, 31, 30, 31, 31, 30, 31, 30, 31][month - 1];
        Month { year, month, days }
    }

    /// CCYYMMDD as a number, whether there is such a day or not.
    fn day(&self, day: usize) -> u32 {
        (self.year * 10_000 + self.month * 100 + day) as u32
    }
}

/// A common year, a leap year, one of a hundred, one of four hundred, the first
/// or the last, with the days of its February.
fn year(prng: &mut Prng) -> (usize, usize) {
    let hundreds = 100 * prng.between(0, 99);
    match prng.below(6) {
        0 => (hundreds + 4 * prng.between(0, 24) + prng.between(1, 3), 28),
        1 => (hundreds + 4 * prng.between(1, 24), 29),
        2 => (400 * prng.between(0, 24) + 100 * prng.between(1, 3), 28),
        3 => (400 * prng.between(1, 24), 29),
        4 => (0, 29),
        _ => (9999, 28),
    }
}

/// A day of the calendar, often one of the last two of its month.
pub fn day(prng: &mut Prng) -> u32 {
    let month = Month::draw(prng);
    let last = month.days;
    month.day(*prng.pick(&[1, 9, 15, last - 1, last, last]))
}

/// One of the last two days of a month, or one of the next two, which are none.
pub fn near_month_end(prng: &mut Prng) -> u32 {
    let month = Month::draw(prng);
    let (last, next) = (month.days, month.days + 1);
    month.day(*prng.pick(&[last - 1, last, last, next, next, next + 1]))
}

/// The number after the last day of a month, which is no day.
pub fn past_month_end(prng: &mut Prng) -> u32 {
    let month = Month::draw(prng);
    month.day(month.days + 1)
}

/// CCYYMMDD with its eight digits.
pub fn written(day: u32) -> Vec<u8> {
    format!("{day:08}").into_bytes()
}

/// Puts days around the ends of months into ISA09 and each B103. The caller's
/// date and GS04 are refused if bad, so that most drafts keep theirs.
pub fn put_near_month_ends(prng: &mut Prng, draft: &mut Draft) {
    let (isa09, gs) = (8, 0);
    draft.isa[isa09] = written(near_month_end(prng)).split_off(2);
    for b1 in draft.indices_of("B1") {
        set_element(&mut draft.segments[b1], 3, written(near_month_end(prng)));
    }
    match prng.below(5) {
        0 => draft.date = near_month_end(prng),
        1 => set_element(&mut draft.segments[gs], 4, written(near_month_end(prng))),
        _ => {}
    }
}
