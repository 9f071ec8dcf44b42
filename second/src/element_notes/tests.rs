use super::*;
use crate::tables::{mandatory, optional, B1, L11};

const DELIMITERS: Delimiters = Delimiters {
    element: b'*',
    component: b'>',
    terminator: b'~',
    repetition: None,
};

/// The codes of `elements` under a layout, as (place, code).
fn codes(layout: &SegmentLayout, elements: &[&str]) -> Vec<(usize, u8)> {
    codes_under(&DELIMITERS, layout, elements)
}

fn codes_under(
    delimiters: &Delimiters,
    layout: &SegmentLayout,
    elements: &[&str],
) -> Vec<(usize, u8)> {
    let segment = Segment {
        id: layout.id,
        elements: elements.iter().map(|element| element.as_bytes()).collect(),
    };
    element_notes(&segment, layout, delimiters)
        .into_iter()
        .map(|note| (note.place, note.error as u8))
        .collect()
}

/// A layout of elements only.
const fn layout(elements: &'static [ElementRow]) -> SegmentLayout {
    SegmentLayout {
        id: b"XX",
        elements,
        syntax_notes: &[],
    }
}

/// What a note finds among three optional elements, given those present.
fn found(relation: Relation, places: &'static [usize], present: &[usize]) -> Vec<(usize, u8)> {
    let note = SyntaxNote { relation, places };
    let errors = syntax_errors(&note, |place| present.contains(&place));
    let code = |(place, error): (usize, ElementError)| (place, error as u8);
    errors.into_iter().map(code).collect()
}

#[test]
fn p_gives_2_to_each_absent_one_if_one_is_present() {
    let p = |present: &[usize]| found(Relation::PairedOrMultiple, &[1, 2, 3], present);
    assert_eq!(p(&[]), []);
    assert_eq!(p(&[1, 2, 3]), []);
    assert_eq!(p(&[2]), [(1, 2), (3, 2)]);
    assert_eq!(p(&[1, 3]), [(2, 2)]);
}

#[test]
fn r_gives_2_to_the_first_named_if_none_is_present() {
    let r = |present: &[usize]| found(Relation::Required, &[3, 1], present);
    assert_eq!(r(&[]), [(3, 2)]);
    assert_eq!(r(&[2]), [(3, 2)]);
    assert_eq!(r(&[1]), []);
    assert_eq!(r(&[1, 3]), []);
}

#[test]
fn e_gives_10_to_each_present_one_after_the_first_present() {
    let e = |present: &[usize]| found(Relation::Exclusion, &[1, 2, 3], present);
    assert_eq!(e(&[]), []);
    assert_eq!(e(&[2]), []);
    assert_eq!(e(&[2, 3]), [(3, 10)]);
    assert_eq!(e(&[1, 2, 3]), [(2, 10), (3, 10)]);
}

#[test]
fn e_counts_in_the_order_of_naming() {
    assert_eq!(found(Relation::Exclusion, &[3, 1], &[1, 3]), [(1, 10)]);
}

#[test]
fn c_gives_2_to_each_absent_other_if_the_first_is_present() {
    let c = |present: &[usize]| found(Relation::Conditional, &[1, 2, 3], present);
    assert_eq!(c(&[]), []);
    assert_eq!(c(&[2]), []);
    assert_eq!(c(&[1]), [(2, 2), (3, 2)]);
    assert_eq!(c(&[1, 3]), [(2, 2)]);
    assert_eq!(c(&[1, 2, 3]), []);
}

#[test]
fn l_gives_2_to_the_second_named_if_the_first_is_present_alone() {
    let l = |present: &[usize]| found(Relation::ListConditional, &[1, 2, 3], present);
    assert_eq!(l(&[]), []);
    assert_eq!(l(&[2]), []);
    assert_eq!(l(&[1]), [(2, 2)]);
    assert_eq!(l(&[1, 3]), []);
    assert_eq!(found(Relation::ListConditional, &[3, 2, 1], &[3]), [(2, 2)]);
}

#[test]
fn the_same_place_and_code_are_noted_once() {
    // P0102 and R0103 both find place 1 missing.
    assert_eq!(codes(&L11, &["", "CN"]), [(1, 2)]);
}

#[test]
fn a_filled_but_bad_element_is_present() {
    assert_eq!(codes(&L11, &["", "C>"]), [(1, 2), (2, 6)]);
    assert_eq!(codes(&L11, &["X", "C"]), [(2, 4)]);
}

#[test]
fn notes_stand_by_place_then_code() {
    const LAYOUT: SegmentLayout = SegmentLayout {
        id: b"XX",
        elements: &[
            mandatory(1, ElementType::An, 1, 5),
            optional(2, ElementType::An, 2, 5),
            optional(3, ElementType::An, 1, 5),
        ],
        syntax_notes: &[
            SyntaxNote {
                relation: Relation::Exclusion,
                places: &[3, 2],
            },
            SyntaxNote {
                relation: Relation::PairedOrMultiple,
                places: &[3, 1],
            },
        ],
    };
    // Place 1 is missing twice over, place 2 too short and excluded.
    let expected = [(1, 1), (1, 2), (2, 4), (2, 10), (4, 3)];
    assert_eq!(codes(&LAYOUT, &["", "X", "Y", "Z"]), expected);
}

#[test]
fn an_absent_and_an_empty_element_are_the_same() {
    assert_eq!(codes(&B1, &[]), [(1, 1)]);
    assert_eq!(codes(&B1, &["", "", "", ""]), [(1, 1)]);
    assert_eq!(codes(&B1, &["AB"]), []);
    assert_eq!(codes(&B1, &["AB", "", "", ""]), []);
}

#[test]
fn elements_beyond_the_table_get_one_3_at_the_place_after_the_last() {
    assert_eq!(codes(&B1, &["AB", "", "", "", ""]), [(5, 3)]);
    assert_eq!(codes(&B1, &["AB", "", "", "", "X", "", "Y"]), [(5, 3)]);
}

#[test]
fn only_the_place_after_the_last_has_no_reference_number() {
    let segment = Segment {
        id: b"B1",
        elements: vec![b"A", b"", b"", b"", b""],
    };
    let notes = element_notes(&segment, &B1, &DELIMITERS);
    let references: Vec<Option<u16>> = notes.iter().map(|note| note.reference).collect();
    assert_eq!(references, [Some(140), None]);
}

#[test]
fn an_element_gets_the_first_code_that_applies() {
    // 6 before 4, 5, 7 and 8; 4 and 5 before 7 and 8.
    assert_eq!(codes(&B1, &["\x7f"]), [(1, 6)]);
    assert_eq!(codes(&B1, &["ABCD>"]), [(1, 6)]);
    assert_eq!(codes(&B1, &["AB", "", "2024131>", ">"]), [(3, 6), (4, 6)]);
    assert_eq!(codes(&B1, &["AB", "", "2024131", "QQ"]), [(3, 4), (4, 5)]);
    assert_eq!(codes(&B1, &["AB", "", "202413151", "Q"]), [(3, 5), (4, 7)]);
    assert_eq!(codes(&B1, &["AB", "", "20241315", "D"]), [(3, 8)]);
}

#[test]
fn lengths_pass_at_their_limits() {
    let thirty = "X".repeat(30);
    let thirty_one = "X".repeat(31);
    assert_eq!(codes(&B1, &["A"]), [(1, 4)]);
    assert_eq!(codes(&B1, &["AB", &thirty]), []);
    assert_eq!(codes(&B1, &["ABCD", &thirty_one]), [(2, 5)]);
    assert_eq!(codes(&B1, &["ABCDE"]), [(1, 5)]);
}

#[test]
fn spaces_and_lower_case_are_content() {
    assert_eq!(codes(&B1, &["  ", " ", "20240315", "A"]), []);
    assert_eq!(codes(&B1, &["ab"]), []);
    assert_eq!(codes(&B1, &["AB", "", "", "a"]), [(4, 7)]);
}

#[test]
fn n0_is_an_optional_minus_and_digits() {
    const LAYOUT: SegmentLayout = layout(&[mandatory(96, ElementType::N0, 1, 10)]);
    for good in ["3", "003", "-3", "0", "1234567890", "-1234567890"] {
        assert_eq!(codes(&LAYOUT, &[good]), [], "{good}");
    }
    for strange in ["+3", "3-", "--3", "3 ", " ", "3.0", "A", "12345678901A"] {
        assert_eq!(codes(&LAYOUT, &[strange]), [(1, 6)], "{strange}");
    }
    assert_eq!(codes(&LAYOUT, &["-"]), [(1, 4)]);
    assert_eq!(codes(&LAYOUT, &["12345678901"]), [(1, 5)]);
    assert_eq!(codes(&LAYOUT, &["-12345678901"]), [(1, 5)]);
    assert_eq!(codes(&LAYOUT, &[""]), [(1, 1)]);
}

#[test]
fn a_minus_that_is_a_delimiter_is_an_invalid_byte() {
    const LAYOUT: SegmentLayout = layout(&[mandatory(96, ElementType::N0, 1, 10)]);
    let delimiters = Delimiters {
        component: b'-',
        ..DELIMITERS
    };
    assert_eq!(codes_under(&delimiters, &LAYOUT, &["-3"]), [(1, 6)]);
    assert_eq!(codes_under(&delimiters, &LAYOUT, &["-"]), [(1, 6)]);
}

#[test]
fn a_bad_tm_gets_9_after_its_lengths() {
    const LAYOUT: SegmentLayout = layout(&[optional(337, ElementType::Tm, 4, 8)]);
    for good in ["0000", "2359", "235959", "2359599", "23595999"] {
        assert_eq!(codes(&LAYOUT, &[good]), [], "{good}");
    }
    for bad in ["2400", "1260", "123460", "12345", "12:0", "12 30"] {
        assert_eq!(codes(&LAYOUT, &[bad]), [(1, 9)], "{bad}");
    }
    assert_eq!(codes(&LAYOUT, &["240"]), [(1, 4)]);
    assert_eq!(codes(&LAYOUT, &["123456789"]), [(1, 5)]);
    assert_eq!(codes(&LAYOUT, &["12>0"]), [(1, 6)]);
    assert_eq!(codes(&LAYOUT, &[""]), []);
}

#[test]
fn a_code_list_is_asked_before_dt_and_tm() {
    const ROW: ElementRow = ElementRow {
        code_list: Some(&[b"20240101", b"20241301"]),
        ..optional(373, ElementType::Dt, 8, 8)
    };
    const LAYOUT: SegmentLayout = layout(&[ROW]);
    assert_eq!(codes(&LAYOUT, &["20240101"]), []);
    assert_eq!(codes(&LAYOUT, &["20241302"]), [(1, 7)]);
    assert_eq!(codes(&LAYOUT, &["20241301"]), [(1, 8)]);
}
