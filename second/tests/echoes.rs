//! AK404: the value as received, cut at 99.

mod common;

use common::*;
use second::answer;
use second::delimiters::Delimiters;
use second::element_notes::element_notes;
use second::segment::Segment;
use second::tables::{optional, ElementRow, ElementType, Relation, SegmentLayout, SyntaxNote};

/// The AK4 of a set with this B1, which are at least one.
fn ak4_of_b1(b1: &str) -> String {
    let notes = notes_of_set(&format!("ST*990*0001~{b1}~SE*3*0001~"));
    let ak4 = notes.strip_prefix("AK3*B1*2**8~").expect("AK3");
    ak4.strip_suffix("AK5*R*5~").expect("AK5").to_string()
}

/// AK3 to AK5 of a set with this SE01.
fn with_se01(se01: &str) -> String {
    notes_of_set(&format!("ST*990*0001~B1*ABCD~SE*{se01}*0001~"))
}

/// Bytes of which each is another than its neighbours.
fn text(length: usize) -> String {
    ('A'..='Z').cycle().take(length).collect()
}

#[test]
fn a_value_is_cut_at_99() {
    for length in [31, 98, 99, 100, 120, 700, 60_000] {
        let value = text(length);
        let shown = &value[..length.min(99)];
        let expected = format!("AK4*2*145*5*{shown}~");
        assert_eq!(ak4_of_b1(&format!("B1*ABCD*{value}")), expected, "{length}");
    }
}

#[test]
fn an_invalid_byte_anywhere_withholds_the_value() {
    for invalid in [">", "\0", "\x1f", "\x7f", "\u{e9}", "\n"] {
        for place in [1, 30, 31, 98, 99, 100, 101, 150, 500] {
            let b102 = format!("{}{invalid}{}", text(place - 1), text(500 - place));
            let notes = ak4_of_b1(&format!("B1*ABCD*{b102}"));
            assert_eq!(notes, "AK4*2*145*6~", "{invalid:?} at {place}");
        }
    }
}

#[test]
fn codes_4_5_7_and_8_show_the_value() {
    assert_eq!(ak4_of_b1("B1*A"), "AK4*1*140*4*A~");
    assert_eq!(ak4_of_b1("B1*ABCDE"), "AK4*1*140*5*ABCDE~");
    assert_eq!(ak4_of_b1("B1*AB***Q"), "AK4*4*558*7*Q~");
    assert_eq!(ak4_of_b1("B1*AB**20230229"), "AK4*3*373*8*20230229~");
}

#[test]
fn codes_1_2_3_and_6_end_at_ak403() {
    assert_eq!(ak4_of_b1("B1**L100"), "AK4*1*140*1~");
    assert_eq!(ak4_of_b1("B1*AB****X"), "AK4*5**3~");
    assert_eq!(ak4_of_b1("B1*A>"), "AK4*1*140*6~");
    let l11 = notes_of_set("ST*990*0001~B1*AB~L11*X~SE*4*0001~");
    assert_eq!(l11, "AK3*L11*3**8~AK4*2*128*2~AK5*R*5~");
}

#[test]
fn each_finding_shows_its_own_value() {
    let expected = "AK4*1*140*4*V~AK4*2*145*6~AK4*3*373*8*20241399~AK4*4*558*5*XYZ~AK4*5**3~";
    assert_eq!(ak4_of_b1("B1*V*W>*20241399*XYZ*U"), expected);
    let two = "ST*990*0001~B1*A~SE*3*0001~ST*990*0002~B1*B~SE*3*0002~";
    let notes = notes_of_sets(GS, two);
    assert!(notes.contains("AK4*1*140*4*A~AK5*R*5~AK2"), "{notes}");
    assert!(notes.contains("AK4*1*140*4*B~AK5*R*5~AK9"), "{notes}");
}

#[test]
fn spaces_are_shown() {
    assert_eq!(ak4_of_b1("B1* "), "AK4*1*140*4* ~");
    assert_eq!(ak4_of_b1("B1*AB***  "), "AK4*4*558*5*  ~");
    assert_eq!(ak4_of_b1("B1*AB*** "), "AK4*4*558*7* ~");
    assert_eq!(ak4_of_b1("B1*AB**        "), "AK4*3*373*8*        ~");
    let spaces = " ".repeat(99);
    let expected = format!("AK4*2*145*5*{spaces}~");
    assert_eq!(ak4_of_b1(&format!("B1*AB*{spaces} ")), expected);
    assert_eq!(ak4_of_b1("B1* AB  "), "AK4*1*140*5* AB  ~");
}

#[test]
fn a_minus_is_shown_and_counts_at_the_cut() {
    let noted = |ak4: &str| format!("AK3*SE*3**8~{ak4}~AK5*R*4*5~");
    assert_eq!(with_se01("-"), noted("AK4*1*96*4*-"));
    assert_eq!(with_se01("12345678901"), noted("AK4*1*96*5*12345678901"));
    assert_eq!(with_se01("-12345678901"), noted("AK4*1*96*5*-12345678901"));
    assert_eq!(with_se01("--3"), noted("AK4*1*96*6"));
    let (digits, shown) = ("7".repeat(99), "7".repeat(98));
    let expected = noted(&format!("AK4*1*96*5*-{shown}"));
    assert_eq!(with_se01(&format!("-{digits}")), expected);
    // A minus and ten digits have no finding, but are no count.
    assert_eq!(with_se01("-1234567890"), "AK5*R*4~");
}

#[test]
fn refusal_14_reckons_with_the_values() {
    let into = |b101: &str, length| {
        let group = format!("ST*990*0001~B1*{b101}~SE*3*0001~GE*1*42~");
        answer(after_gs(&group).as_bytes(), length, DATE, TIME, CONTROL)
    };
    let withheld = into("ABCD>", BUFFER).length();
    let needed = withheld + "*ABCDE".len();
    assert_eq!(into("ABCDE", needed).length(), needed);
    assert_eq!(into("ABCDE", needed).number(), 0);
    for short in [needed - 1, withheld] {
        assert_eq!(into("ABCDE", short).number(), 14);
        assert_eq!(into("ABCDE", short).length(), needed);
    }
    assert_eq!(into("ABCD>", withheld).number(), 0);
}

/// A table with what the base tables never cause: code 9, and code 10 for each
/// filled element where the first is filled too.
const LAYOUT: SegmentLayout = SegmentLayout {
    id: b"XX",
    elements: &[
        optional(1, ElementType::An, 1, 1),
        optional(2, ElementType::An, 2, 5),
        ElementRow {
            code_list: Some(&[b"A"]),
            ..optional(3, ElementType::Id, 1, 1)
        },
        optional(4, ElementType::Dt, 8, 8),
        optional(5, ElementType::Tm, 4, 8),
        optional(6, ElementType::N0, 1, 3),
        optional(7, ElementType::An, 1, 500),
    ],
    syntax_notes: &[SyntaxNote {
        relation: Relation::Exclusion,
        places: &[1, 2, 3, 4, 5, 6, 7],
    }],
};

/// The notes on elements of this table, as (place, code, value shown).
fn notes<'a>(elements: &[&'a str]) -> Vec<(usize, u8, &'a str)> {
    let segment = Segment {
        id: LAYOUT.id,
        elements: elements.iter().map(|element| element.as_bytes()).collect(),
    };
    let delimiters = Delimiters {
        element: b'*',
        component: b'>',
        terminator: b'~',
        repetition: None,
    };
    let notes = element_notes(&segment, &LAYOUT, &delimiters).into_iter();
    notes
        .map(|note| {
            let echo = std::str::from_utf8(note.echo).unwrap();
            (note.place, note.error as u8, echo)
        })
        .collect()
}

#[test]
fn code_9_shows_the_value() {
    let with_time = |time| notes(&["", "", "", "", time]);
    for bad in ["2400", "1260", "12345", "123460", "12:0"] {
        assert_eq!(with_time(bad), [(5, 9, bad)]);
    }
    assert_eq!(with_time("12>0"), [(5, 6, "")]);
}

#[test]
fn code_10_shows_the_value_at_its_own_place() {
    assert_eq!(notes(&["X", "ABC"]), [(2, 10, "ABC")]);
    assert_eq!(notes(&["", "ABC", "A"]), [(3, 10, "A")]);
    assert_eq!(notes(&["X", "", "", "", "", "-12"]), [(6, 10, "-12")]);
    let long = text(500);
    let noted = notes(&["X", "", "", "", "", "", &long]);
    assert_eq!(noted, [(7, 10, &long[..99])]);
}

#[test]
fn codes_4_to_9_and_10_at_one_place_show_the_value_both() {
    let elements = ["X", "A", "Q", "20241301", "2400", "-"];
    let expected = [
        (2, 4, "A"),
        (2, 10, "A"),
        (3, 7, "Q"),
        (3, 10, "Q"),
        (4, 8, "20241301"),
        (4, 10, "20241301"),
        (5, 9, "2400"),
        (5, 10, "2400"),
        (6, 4, "-"),
        (6, 10, "-"),
    ];
    assert_eq!(notes(&elements), expected);
    let long = text(120);
    let expected = [(2, 5, &long[..99]), (2, 10, &long[..99])];
    assert_eq!(notes(&["X", &long]), expected);
}

#[test]
fn codes_6_and_10_at_one_place_show_nothing() {
    assert_eq!(notes(&["X", "AB>"]), [(2, 6, ""), (2, 10, "")]);
    let number = ["X", "", "", "", "", "+1"];
    assert_eq!(notes(&number), [(6, 6, ""), (6, 10, "")]);
    let bad_after_the_cut = format!("{}>", text(149));
    let elements = ["X", "", "", "", "", "", &bad_after_the_cut];
    assert_eq!(notes(&elements), [(7, 6, ""), (7, 10, "")]);
}

#[test]
fn code_6_at_another_place_withholds_nothing() {
    assert_eq!(notes(&[">", "ABC"]), [(1, 6, ""), (2, 10, "ABC")]);
    let expected = [(2, 6, ""), (2, 10, ""), (3, 7, "Q"), (3, 10, "Q")];
    assert_eq!(notes(&["X", "A>", "Q"]), expected);
}
