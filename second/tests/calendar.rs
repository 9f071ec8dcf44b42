//! Rule DT follows the Gregorian calendar: in B103, in GS04 and for the caller's date.

mod common;

use common::*;
use second::answer;
use second::values::is_date;

const DAYS: [&str; 17] = [
    "20230131", "20230228", "20230331", "20230430", "20230531", "20230630", "20230731", "20230831",
    "20230930", "20231031", "20231130", "20231231", "20240229", "19000228", "20000229", "00000229",
    "04000229",
];

const NO_DAYS: [&str; 21] = [
    "20230132", "20230229", "20230332", "20230431", "20230532", "20230631", "20230732", "20230832",
    "20230931", "20231032", "20231131", "20231232", "20230230", "20230231", "20240230", "19000229",
    "20000230", "21000229", "01000229", "00000230", "20240100",
];

/// AK3 to AK5 for a set with this B103.
fn with_b103(b103: &str) -> String {
    notes_of_set(&format!("ST*990*0001~B1*ABCD**{b103}~SE*3*0001~"))
}

fn with_gs04(gs04: &str) -> String {
    let gs = GS.replace("20240315", gs04);
    format!("{ISA}{gs}{CLEAN}GE*1*42~{IEA}")
}

/// The number given to a clean interchange under this caller's date.
fn number_for(date: u32) -> u8 {
    let clean = after_gs(&format!("{CLEAN}GE*1*42~"));
    answer(clean.as_bytes(), BUFFER, date, TIME, CONTROL).number()
}

#[test]
fn b103_is_a_day_or_gets_code_8() {
    for day in DAYS {
        assert_eq!(with_b103(day), "AK5*A~", "{day}");
    }
    for no_day in NO_DAYS {
        let bad = format!("AK3*B1*2**8~AK4*3*373*8*{no_day}~AK5*R*5~");
        assert_eq!(with_b103(no_day), bad);
    }
}

#[test]
fn gs04_is_a_day_or_refused_with_9() {
    for day in DAYS {
        assert_eq!(number(&with_gs04(day)), 0, "{day}");
    }
    for no_day in NO_DAYS {
        assert_eq!(number(&with_gs04(no_day)), 9, "{no_day}");
    }
}

#[test]
fn the_callers_date_is_a_day_or_refused_with_1() {
    for day in DAYS {
        assert_eq!(number_for(day.parse().unwrap()), 0, "{day}");
    }
    for no_day in NO_DAYS {
        assert_eq!(number_for(no_day.parse().unwrap()), 1, "{no_day}");
    }
}

#[test]
fn year_0000_counts_as_divisible() {
    assert_eq!(number_for(229), 0);
    assert_eq!(number_for(230), 1);
    assert_eq!(number_for(1000229), 1);
    assert_eq!(number_for(4000229), 0);
}

#[test]
fn twenty_nine_days_in_february_have_97_of_400_years() {
    let has_29_days = |year: &u32| is_date(format!("{year:04}0229").as_bytes());
    for first in (0..10_000).step_by(400) {
        let years = first..first + 400;
        assert_eq!(years.filter(has_29_days).count(), 97, "{first}");
    }
}

#[test]
fn ten_thousand_years_have_their_days_and_no_others() {
    let mut days = 0;
    for year in 0..10_000 {
        for month_and_day in 0..1400 {
            let date = format!("{year:04}{month_and_day:04}");
            days += u32::from(is_date(date.as_bytes()));
        }
    }
    assert_eq!(days, 25 * 146_097);
}

#[test]
fn isa09_is_not_under_rule_dt() {
    let clean = after_gs(&format!("{CLEAN}GE*1*42~"));
    for isa09 in ["230230", "230431", "991399", "ABCDEF"] {
        let interchange = clean.replacen("*240315*", &format!("*{isa09}*"), 1);
        assert_eq!(number(&interchange), 0, "{isa09}");
    }
}

#[test]
fn other_codes_still_come_before_8() {
    let code = |b103: &str| with_b103(b103).replace("AK3*B1*2**8~AK4*3*373*", "");
    assert_eq!(code("2023023"), "4*2023023~AK5*R*5~");
    assert_eq!(code("202302300"), "5*202302300~AK5*R*5~");
    assert_eq!(code("202302>0"), "6~AK5*R*5~");
    assert_eq!(code("202302A0"), "8*202302A0~AK5*R*5~");
}

#[test]
fn refusals_1_and_9_keep_their_places_in_the_order() {
    assert_eq!(answer(b"", BUFFER, 20230230, TIME, CONTROL).number(), 1);
    let no_day = with_gs04("20230230");
    assert_eq!(number(&no_day.replace("IEA*1", "IEA*2")), 8);
    assert_eq!(number(&no_day.replace("GS*GF", "GS*FA")), 9);
}
