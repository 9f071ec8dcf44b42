//! ISA11 as the repetition separator (change request 9).

mod common;

use common::*;
use second::delimiters::Delimiters;
use second::element_notes::element_notes;
use second::isa::SEPARATORS;
use second::segment::Segment;
use second::tables::{mandatory, optional, ElementType, Relation, SegmentLayout, SyntaxNote};

const OFFSET_OF_ISA11: usize = 82;

/// The interchange with `^` for ISA11, which ISA12 `00601` makes a delimiter.
fn repeating(interchange: &str) -> String {
    interchange.replace("*U*00601*", "*^*00601*")
}

fn plain(interchange: &str) -> String {
    interchange.replace("*U*00601*", "*^*00401*")
}

/// AK3 to AK5 of a set whose three segments have these elements.
fn notes_of_elements(b1: &str, se: &str) -> String {
    let set = format!("ST*990*0001~B1*{b1}~SE*{se}~");
    notes_in_repeating(&format!("{GS}{set}GE*1*42~"))
}

fn notes_in_repeating(group: &str) -> String {
    let notes = notes_of(&repeating(&after_isa(&format!("{group}{IEA}"))));
    let inner = notes.strip_prefix("AK1*GF*42~AK2*990*0001~").expect("AK2");
    inner.rsplit_once("AK9*").expect("AK9").0.to_string()
}

/// AK4 of a B1 that has these elements.
fn ak4_of_b1(b1: &str) -> String {
    let notes = notes_of_elements(b1, "3*0001");
    let ak4 = notes.strip_prefix("AK3*B1*2**8~").expect("AK3");
    ak4.strip_suffix("AK5*R*5~").expect("AK5").to_string()
}

/// A clean interchange with this ISA11 and ISA12, that asks for a TA1.
fn with_isa(isa11: u8, isa12: &str) -> Vec<u8> {
    let group = format!("{CLEAN}GE*1*42~");
    let isa12 = format!("*U*{isa12}*");
    let text = after_gs(&group)
        .replace("*U*00601*", &isa12)
        .replace("*0*T*>", "*1*T*>");
    let mut bytes = text.into_bytes();
    bytes[OFFSET_OF_ISA11] = isa11;
    bytes
}

/// The number that both entries give.
fn number_of_both(interchange: &[u8]) -> u8 {
    let number = ask(interchange).number();
    assert_eq!(ask_for_ta1(interchange).number(), number);
    number
}

#[test]
fn five_digits_from_00402_on_make_isa11_a_delimiter() {
    let b102_of = |isa12: &str| {
        let set = "ST*990*0001~B1*ABCD*X^Y~SE*3*0001~GE*1*42~";
        let isa12 = format!("*^*{isa12}*");
        notes_of(&after_gs(set).replace("*U*00601*", &isa12))
    };
    for isa12 in [
        "00402", "00403", "00501", "00601", "10000", "10401", "99999",
    ] {
        let notes = b102_of(isa12);
        assert!(notes.contains("AK4*2*145*12~AK5*R*5~"), "{isa12} {notes}");
    }
    for isa12 in [
        "00401", "00400", "00000", "0040 ", " 0402", "402  ", "+0402", "0040A", "A0402", "0^402",
        "^0402", "0040^", "     ",
    ] {
        let notes = b102_of(isa12);
        assert!(notes.contains("AK5*A~"), "{isa12} {notes}");
    }
}

#[test]
fn u_is_no_delimiter_under_any_isa12() {
    for isa12 in ["00401", "00402", "00601", "99999"] {
        assert_eq!(number_of_both(&with_isa(b'U', isa12)), 0, "{isa12}");
    }
    let group = after_gs("ST*990*0001~B1*UUUU*U~SE*3*0001~GE*1*42~");
    assert!(notes_of(&group).contains("AK5*A~"));
}

#[test]
fn isa11_is_held_to_check_4_or_5_but_never_both() {
    for byte in 0..=255u8 {
        let legal = !byte.is_ascii_alphanumeric() && !b" *>~".contains(&byte);
        let as_delimiter = if legal || byte == b'U' { 0 } else { 4 };
        let valid = (32..=126).contains(&byte) && !b"*>~".contains(&byte);
        let as_text = if valid { 0 } else { 5 };
        for isa12 in ["00402", "00601", "99999"] {
            let number = number_of_both(&with_isa(byte, isa12));
            assert_eq!(number, as_delimiter, "{byte} {isa12}");
        }
        for isa12 in ["00401", "0040 ", "004O2"] {
            let number = number_of_both(&with_isa(byte, isa12));
            assert_eq!(number, as_text, "{byte} {isa12}");
        }
    }
}

#[test]
fn no_other_field_of_isa_holds_it() {
    let isa12 = 84..89;
    let offsets = (4..103).filter(|offset| !SEPARATORS.contains(offset));
    for offset in offsets.filter(|&offset| offset != OFFSET_OF_ISA11) {
        let mut bytes = with_isa(b'^', "00402");
        bytes[offset] = b'^';
        // In ISA12 it is no digit, so that ISA11 is text.
        let expected = if isa12.contains(&offset) { 0 } else { 5 };
        assert_eq!(ask(&bytes).number(), expected, "{offset}");
    }
}

#[test]
fn check_4_comes_before_5_and_15() {
    let mut bytes = with_isa(b'A', "00402");
    bytes[4] = 0;
    bytes[100] = b'0';
    assert_eq!(number_of_both(&bytes), 4);
    bytes[OFFSET_OF_ISA11] = b'^';
    assert_eq!(number_of_both(&bytes), 5);
    bytes[4] = b'^';
    assert_eq!(number_of_both(&bytes), 5);
    bytes[4] = b'0';
    assert_eq!(ask_for_ta1(&bytes).number(), 15);
}

#[test]
fn headers_do_not_hold_it() {
    for (header, spoiled, number_given) in [
        ("*CARRA*", "*CA^RA*", 9),
        ("*BROKB*", "*BROKB^*", 9),
        ("*X*", "*^*", 9),
        ("*006010~", "*006010^~", 9),
        ("*42*X", "*4^2*X", 9),
        ("ST*990*0001", "ST*990*000^", 13),
        ("ST*990*0001", "ST*9^0*0001", 13),
    ] {
        let interchange = after_gs(&format!("{CLEAN}GE*1*42~")).replacen(header, spoiled, 1);
        assert_eq!(number(&repeating(&interchange)), number_given, "{spoiled}");
        let as_text = if spoiled.contains("4^2") || spoiled.contains("9^0") {
            number_given
        } else {
            0
        };
        assert_eq!(number(&plain(&interchange)), as_text, "{spoiled}");
    }
}

#[test]
fn it_cuts_neither_segments_nor_elements() {
    let long = format!("X^{}", "Y".repeat(28));
    assert_eq!(ak4_of_b1(&format!("ABCD*{long}")), "AK4*2*145*12~");
    assert_eq!(ak4_of_b1("AB^SE^3^0001"), "AK4*1*140*12~");
}

#[test]
fn code_12_comes_first_and_alone() {
    for b101 in [
        "^", "^^", "A^", "^A", "A^B", "AB^CD", "ABCDE^", "A^>", ">^", "\x7f^", "^\n",
    ] {
        assert_eq!(ak4_of_b1(b101), "AK4*1*140*12~", "{b101:?}");
    }
    assert_eq!(ak4_of_b1("AB***A^D"), "AK4*4*558*12~");
    assert_eq!(ak4_of_b1("AB***^"), "AK4*4*558*12~");
    for b103 in ["20240315^20240316", "2024031^", "20241315^", "^"] {
        assert_eq!(ak4_of_b1(&format!("AB**{b103}")), "AK4*3*373*12~");
    }
    let each = "AK4*1*140*12~AK4*2*145*12~AK4*3*373*12~AK4*4*558*12~";
    assert_eq!(ak4_of_b1("A^*B^*^*A^D"), each);
    assert_eq!(
        ak4_of_b1("A*^*20241315*>"),
        "AK4*1*140*4*A~AK4*2*145*12~AK4*3*373*8*20241315~AK4*4*558*6~"
    );
}

#[test]
fn it_is_found_at_any_distance_and_never_shown() {
    for place in [1, 30, 31, 99, 100, 500] {
        let mut b102 = "X".repeat(500);
        b102.replace_range(place - 1..place, "^");
        assert_eq!(ak4_of_b1(&format!("AB*{b102}")), "AK4*2*145*12~", "{place}");
    }
}

#[test]
fn trailers_of_sets_have_code_12_beside_their_set_codes() {
    let noted = |ak4: &str, codes: &str| format!("AK3*SE*3**8~{ak4}~AK5*R*{codes}~");
    for se01 in ["3^3", "3^", "^3", "^"] {
        let expected = noted("AK4*1*96*12", "4*5");
        assert_eq!(notes_of_elements("AB", &format!("{se01}*0001")), expected);
    }
    for se02 in ["0001^", "^0001", "0001^0001", "^"] {
        let expected = noted("AK4*2*329*12", "3*5");
        assert_eq!(notes_of_elements("AB", &format!("3*{se02}")), expected);
    }
    let both = noted("AK4*1*96*12~AK4*2*329*12", "3*4*5");
    assert_eq!(notes_of_elements("AB", "3^*0001^"), both);
    assert_eq!(
        notes_of_elements("AB", "+^3*0001"),
        noted("AK4*1*96*12", "4*5")
    );
}

#[test]
fn a_minus_that_is_isa11_is_no_sign() {
    let set = after_gs("ST*990*0001~B1*AB~SE*-3*0001~GE*1*42~");
    let under = |isa12: &str| notes_of(&set.replace("*U*00601*", &format!("*-*{isa12}*")));
    let noted = "AK3*SE*3**8~AK4*1*96*12~AK5*R*4*5~";
    assert!(under("00402").contains(noted));
    assert!(under("00401").contains("AK2*990*0001~AK5*R*4~"));
}

#[test]
fn a_lone_separator_is_present_for_syntax_notes() {
    let l11 = |elements: &str| {
        let set = format!("ST*990*0001~B1*AB~L11*{elements}~SE*4*0001~");
        let notes = notes_in_repeating(&format!("{GS}{set}GE*1*42~"));
        let notes = notes.strip_prefix("AK3*L11*3**8~").expect("AK3");
        notes.strip_suffix("AK5*R*5~").expect("AK5").to_string()
    };
    assert_eq!(l11("^"), "AK4*1*127*12~AK4*2*128*2~");
    assert_eq!(l11("*^"), "AK4*1*127*2~AK4*2*128*12~");
    assert_eq!(l11("**^"), "AK4*3*352*12~");
    assert_eq!(l11("X*^"), "AK4*2*128*12~");
    assert_eq!(l11("^*^*^"), "AK4*1*127*12~AK4*2*128*12~AK4*3*352*12~");
}

#[test]
fn what_has_no_element_check_has_no_12() {
    assert_eq!(ak4_of_b1("AB****^"), "AK4*5**3~");
    assert_eq!(ak4_of_b1("AB****X*A^B"), "AK4*5**3~");
    let set = "ST*990*0001~B1*AB~N1*A^B~K1*^~B^1*X~SE*6*0001~GE*1*42~";
    let expected = "AK3*N1*3**1~AK3*K1*4**6~AK3*ZZZ*5**1~AK5*R*5~";
    assert_eq!(notes_in_repeating(&format!("{GS}{set}")), expected);
    let st03 = "ST*990*0001*A^B~B1*AB~SE*3*0001~GE*1*42~";
    let noted = "AK3*ST*1**8~AK4*3*1705*12~AK5*R*5~";
    assert_eq!(notes_in_repeating(&format!("{GS}{st03}")), noted);
    let beyond = "AK3*ST*1**8~AK4*3**3~AK5*R*5~";
    assert_eq!(notes_in_repeating(&format!("{GS_004010}{st03}")), beyond);
}

#[test]
fn trailers_of_groups_and_interchanges_are_compared_as_before() {
    let group_codes = |ge: &str| ak9_of(&repeating(&after_gs(&format!("{CLEAN}{ge}~"))));
    assert_eq!(group_codes("GE*1*42^"), "AK9*R*1*1*0*4~");
    assert_eq!(group_codes("GE*1^*42"), "AK9*R*1*1*0*5~");
    assert_eq!(group_codes("GE*1*42*^"), "AK9*A*1*1*1~");
    for iea in ["IEA*1^*000000042~", "IEA*1*000000042^~", "IEA*1*^~"] {
        let interchange = after_isa(&format!("{GS}{CLEAN}GE*1*42~{iea}"));
        assert_eq!(number(&repeating(&interchange)), 8, "{iea}");
    }
}

#[test]
fn every_group_has_the_same_delimiters() {
    let set = |number: &str| format!("{GS}ST*990*{number}~B1*A^~SE*3*{number}~GE*1*42~");
    let interchange = after_isa(&format!("{}{}IEA*2*000000042~", set("0001"), set("0002")));
    let response = ask(repeating(&interchange).as_bytes());
    let text = String::from_utf8(response.response().to_vec()).unwrap();
    assert_eq!(text.matches("AK4*1*140*12~AK5*R*5~").count(), 2, "{text}");
    let second_header = interchange.replacen("ST*990*0002", "ST*990*000^", 1);
    assert_eq!(number(&repeating(&second_header)), 13);
}

#[test]
fn the_response_has_three_delimiters() {
    let bytes = with_isa(b'^', "00601");
    for given in [ask(&bytes), ask_for_ta1(&bytes)] {
        assert_eq!(&given.response()[81..90], b"*U*00401*");
    }
}

/// A table in which two elements exclude each other.
const LAYOUT: SegmentLayout = SegmentLayout {
    id: b"XX",
    elements: &[
        mandatory(1, ElementType::An, 1, 5),
        optional(2, ElementType::N0, 1, 5),
        optional(3, ElementType::Tm, 4, 8),
    ],
    syntax_notes: &[SyntaxNote {
        relation: Relation::Exclusion,
        places: &[1, 2, 3],
    }],
};

#[test]
fn code_10_stands_before_12_and_shows_nothing_beside_it() {
    let delimiters = Delimiters {
        element: b'*',
        component: b'>',
        terminator: b'~',
        repetition: Some(b'^'),
    };
    let notes = |elements: &[&'static str]| -> Vec<(usize, u8, &str)> {
        let segment = Segment {
            id: LAYOUT.id,
            elements: elements.iter().map(|element| element.as_bytes()).collect(),
        };
        let notes = element_notes(&segment, &LAYOUT, &delimiters).into_iter();
        let shown = |echo| std::str::from_utf8(echo).unwrap();
        notes
            .map(|note| (note.place, note.error as u8, shown(note.echo)))
            .collect()
    };
    assert_eq!(notes(&["X", "1^2"]), [(2, 10, ""), (2, 12, "")]);
    assert_eq!(notes(&["^", "12"]), [(1, 12, ""), (2, 10, "12")]);
    assert_eq!(notes(&["X", "", "1200^"]), [(3, 10, ""), (3, 12, "")]);
    assert_eq!(
        notes(&["", "^", "2400"]),
        [(1, 1, ""), (2, 12, ""), (3, 9, "2400"), (3, 10, "2400")]
    );
}
