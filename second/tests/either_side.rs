//! "Either side of the line": P1 to P12, the run-only lines, the tempting and
//! wrong, each in edition 006010 and right in everything else.

mod common;

use common::*;

/// A set of ST, one B1 and SE.
fn with_b1(b1: &str) -> String {
    notes_of_set(&format!("ST*990*0001~{b1}~SE*3*0001~"))
}

/// A set of ST, B1, one L11 and SE.
fn with_l11(l11: &str) -> String {
    notes_of_set(&format!("ST*990*0001~B1*ABCD~{l11}~SE*4*0001~"))
}

#[test]
fn p1_b101_of_one_byte_is_too_short() {
    assert_eq!(with_b1("B1*A"), "AK3*B1*2**8~AK4*1*140*4*A~AK5*R*5~");
}

#[test]
fn p2_b101_of_two_and_of_four_bytes_is_clean() {
    assert_eq!(with_b1("B1*AB"), "AK5*A~");
    assert_eq!(with_b1("B1*ABCD"), "AK5*A~");
}

#[test]
fn p3_b101_of_five_bytes_is_too_long() {
    let long = "AK3*B1*2**8~AK4*1*140*5*ABCDE~AK5*R*5~";
    assert_eq!(with_b1("B1*ABCDE"), long);
}

#[test]
fn p4_l11_alone_lacks_place_1() {
    assert_eq!(with_l11("L11"), "AK3*L11*3**8~AK4*1*127*2~AK5*R*5~");
}

#[test]
fn p5_l11_with_place_3_only_is_clean() {
    assert_eq!(with_l11("L11***T"), "AK5*A~");
}

#[test]
fn p6_l11_with_place_1_only_lacks_place_2() {
    assert_eq!(with_l11("L11*X"), "AK3*L11*3**8~AK4*2*128*2~AK5*R*5~");
}

#[test]
fn p7_day_31_is_clean_and_day_00_is_a_bad_date() {
    assert_eq!(with_b1("B1*ABCD**20241231"), "AK5*A~");
    let bad = "AK3*B1*2**8~AK4*3*373*8*20240100~AK5*R*5~";
    assert_eq!(with_b1("B1*ABCD**20240100"), bad);
}

#[test]
fn p8_a_negative_se01_is_a_wrong_count_and_no_element_error() {
    assert_eq!(notes_of_set("ST*990*0001~B1*ABCD~SE*-3*0001~"), "AK5*R*4~");
}

#[test]
fn p9_a_se01_with_leading_zeros_is_clean() {
    assert_eq!(notes_of_set("ST*990*0001~B1*ABCD~SE*003*0001~"), "AK5*A~");
}

#[test]
fn p10_a_set_without_b1_lacks_it_at_the_trailer() {
    let expected = "AK3*B1*2**3~AK5*R*5~";
    assert_eq!(notes_of_set("ST*990*0001~SE*2*0001~"), expected);
}

#[test]
fn p11_a_second_l11_exceeds_the_maximum() {
    let set = "ST*990*0001~B1*ABCD~L11***T~L11***T~SE*5*0001~";
    assert_eq!(notes_of_set(set), "AK3*L11*4**5~AK5*R*5~");
}

#[test]
fn p12_k1_is_not_in_006010_and_b1_in_lower_case_is_unrecognized() {
    let k1 = "ST*990*0001~B1*ABCD~K1*X~SE*4*0001~";
    assert_eq!(notes_of_set(k1), "AK3*K1*3**6~AK5*R*5~");
    let lower = "ST*990*0001~B1*ABCD~b1*X~SE*4*0001~";
    assert_eq!(notes_of_set(lower), "AK3*ZZZ*3**1~AK5*R*5~");
}

#[test]
fn run_only_lines() {
    let mut long = after_gs(&format!("{CLEAN}GE*1*42~")).into_bytes();
    assert_eq!(ask(&long[..105]).number(), 2);
    assert_eq!(number(ISA), 7);
    long.resize(65_537, b'~');
    assert_eq!(ask(&long).number(), 2);
    let late = GS.replace("0915", "2400");
    assert_eq!(number(&format!("{ISA}{late}{CLEAN}GE*1*42~{IEA}")), 9);
    let second = CLEAN.replace("0001", "0002");
    let two = after_gs(&format!("{CLEAN}{second}GE*1*42~"));
    assert_eq!(ak9_of(&two), "AK9*R*1*2*0*5~");
}

#[test]
fn positions_are_not_carried_over_from_set_to_set() {
    let sets = "ST*990*0001~B1*A~SE*3*0001~ST*990*0002~B1*A~SE*3*0002~";
    let notes = notes_of_sets(GS, sets);
    assert_eq!(notes.matches("AK3*B1*2**8~").count(), 2);
}

#[test]
fn a_place_in_the_table_is_not_carried_over_from_set_to_set() {
    let sets = "ST*990*0001~B1*AB~L11***T~SE*4*0001~ST*990*0002~B1*AB~L11***T~SE*4*0002~";
    let expected = "AK1*GF*42~AK2*990*0001~AK5*A~AK2*990*0002~AK5*A~AK9*A*2*2*2~";
    assert_eq!(notes_of_sets(GS, sets), expected);
}

#[test]
fn code_2_of_l11_is_not_reported_twice() {
    assert_eq!(with_l11("L11**CN"), "AK3*L11*3**8~AK4*1*127*2~AK5*R*5~");
}

#[test]
fn ak902_is_not_cut_to_the_digits_that_fit_a_smaller_count() {
    let group = after_gs(&format!("{CLEAN}GE*123456*42~"));
    assert_eq!(ak9_of(&group), "AK9*R*123456*1*0*5~");
}

#[test]
fn the_place_does_not_move_on_code_7() {
    // Were the place moved back to B1, the second L11 would be a first use.
    let set = "ST*990*0001~L11***T~B1*ABCD~L11***T~SE*5*0001~";
    let expected = "AK3*B1*2**3~AK3*B1*3**7~AK3*L11*4**5~AK5*R*5~";
    assert_eq!(notes_of_set(set), expected);
}
