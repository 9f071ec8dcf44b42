//! TA1 (change request 3): the response, the note codes, refusals 15 and 14,
//! and that a 997 is written only where TA1 says A.

mod common;

use common::*;
use second::generator::{cases, Case};
use second::{answer_interchange, Answer};

const WANTING_TA1: &str = "ISA*00*          *00*          *ZZ*CARRIERA       *ZZ*BROKERB        \
                           *240315*0915*U*00601*000000042*1*T*>~";

const OUR_ISA: &str = "ISA*00*          *00*          *ZZ*BROKERB        *ZZ*CARRIERA       \
                       *240315*0930*U*00401*000000077*0*T*>~";

/// What a TA1 needs: ISA 106, TA1 32, IEA 16.
const TA1_LENGTH: usize = 154;

fn with_group(group: &str) -> String {
    format!("{WANTING_TA1}{group}{IEA}")
}

fn with_iea(iea: &str) -> String {
    format!("{WANTING_TA1}{GS}{CLEAN}GE*1*42~{iea}")
}

fn clean() -> String {
    with_iea(IEA)
}

/// The clean interchange with one byte changed.
fn with_byte(offset: usize, byte: u8) -> Vec<u8> {
    let mut bytes = clean().into_bytes();
    bytes[offset] = byte;
    bytes
}

/// Verdict and note code for an interchange, between the bytes that every
/// response here has.
fn ta1_of(interchange: &str) -> String {
    let given = ask_for_ta1(interchange.as_bytes());
    assert_eq!(given.number(), 0, "{interchange}");
    let text = String::from_utf8(given.response().to_vec()).unwrap();
    let told = text
        .strip_prefix(OUR_ISA)
        .and_then(|rest| rest.strip_prefix("TA1*000000042*240315*0915*"))
        .and_then(|rest| rest.strip_suffix("~IEA*0*000000077~"));
    told.expect("one TA1").to_string()
}

fn number_of_ta1(interchange: &[u8]) -> u8 {
    let given = ask_for_ta1(interchange);
    assert_eq!(given.length(), given.response().len());
    given.number()
}

#[test]
fn a_good_envelope_gets_a_and_000() {
    assert_eq!(ta1_of(&clean()), "A*000");
    for iea in ["IEA*01*000000042~", "IEA*00001*000000042~"] {
        assert_eq!(ta1_of(&with_iea(iea)), "A*000", "{iea}");
    }
}

#[test]
fn a_group_that_is_refused_has_a_good_envelope() {
    for (group, number) in [
        ("GS*GF~GE*1*42~", 9),
        ("GS*FA*CARRA*BROKB*20240315*0915*42*X*004010~", 10),
        ("GS*GF*CARRA*BROKB*20240315*0915*42*X*006010~B1*AB~", 11),
        ("GS*GF*CARRA*BROKB*20240315*0915*42*X*006010~GE*0*42~", 12),
        ("GS*GF*CARRA*BROKB*20240315*0915*42*X*006010~ST*990*1~", 13),
        (
            "GS*GF*CARRA*BROKB*20240315*0915*42*X*006010~ST*990*0001~",
            0,
        ),
    ] {
        let interchange = with_group(group);
        assert_eq!(ask(interchange.as_bytes()).number(), number, "{group}");
        assert_eq!(ta1_of(&interchange), "A*000", "{group}");
    }
}

#[test]
fn check_6_gives_023() {
    let clean = clean();
    for interchange in [&clean[..clean.len() - 1], &format!("{clean}\n")] {
        assert_eq!(ta1_of(interchange), "R*023", "{interchange}");
    }
}

#[test]
fn check_7_gives_022() {
    assert_eq!(ta1_of(WANTING_TA1), "R*022");
    for group in [
        "",
        "~",
        "ST*990*0001~",
        "TA1*1~GS*GF~",
        "GS*GF~GS*GF~",
        "GS*GF~GE~GE~",
        "GS*GF~GE~~",
        "GS*GF~IEA*1*000000042~",
        "GS*GF~ISA~",
    ] {
        assert_eq!(ta1_of(&with_group(group)), "R*022", "{group}");
    }
}

#[test]
fn check_8_looks_at_the_elements_then_at_iea02_then_at_iea01() {
    for (iea, told) in [
        ("IEA~", "R*022"),
        ("IEA*~", "R*022"),
        ("IEA*1~", "R*022"),
        ("IEA*1*000000042*~", "R*022"),
        ("IEA*2*000000043*1~", "R*022"),
        ("IEA***~", "R*022"),
        ("IEA**~", "R*001"),
        ("IEA*1*~", "R*001"),
        ("IEA*1*42~", "R*001"),
        ("IEA*1*000000043~", "R*001"),
        ("IEA*1*100000042~", "R*001"),
        ("IEA*1*0000000420~", "R*001"),
        ("IEA*2*000000043~", "R*001"),
        ("IEA*000001*000000043~", "R*001"),
        ("IEA**000000042~", "R*021"),
        ("IEA*0*000000042~", "R*021"),
        ("IEA*2*000000042~", "R*021"),
        ("IEA*000001*000000042~", "R*021"),
        ("IEA*-1*000000042~", "R*021"),
        ("IEA*1 *000000042~", "R*021"),
    ] {
        assert_eq!(ta1_of(&with_iea(iea)), told, "{iea}");
        assert_eq!(ask(with_iea(iea).as_bytes()).number(), 8, "{iea}");
    }
}

#[test]
fn the_first_check_gives_the_note_code() {
    let disordered = with_group("GS*GF~GS*GF~");
    assert_eq!(ta1_of(&format!("{WANTING_TA1}X")), "R*023");
    assert_eq!(ta1_of(&disordered[..disordered.len() - 1]), "R*023");
    assert_eq!(ta1_of(&format!("{}X", with_iea("IEA*2*1~"))), "R*023");
    assert_eq!(
        ta1_of(&format!("{WANTING_TA1}{GS}{GS}IEA*2*000000043~")),
        "R*022"
    );
}

#[test]
fn isa09_and_isa10_stand_as_received() {
    let odd = clean().replace("240315*0915*U", "AB CD!*9?9?*U");
    let given = ask_for_ta1(odd.as_bytes());
    let ta1 = "TA1*000000042*AB CD!*9?9?*A*000~";
    assert_eq!(&given.response()[106..138], ta1.as_bytes());
}

#[test]
fn the_response_has_the_delimiters_and_isa15_of_the_interchange() {
    let change = |byte: u8| match byte {
        b'*' => b'|',
        b'>' => 0xFF,
        b'~' => b'\n',
        b'T' => b'P',
        other => other,
    };
    let changed = |bytes: &str| -> Vec<u8> { bytes.bytes().map(change).collect() };
    // ST becomes SP, which is nothing that the envelope looks at.
    let given = ask_for_ta1(&changed(&clean()));
    let mut expected = changed(OUR_ISA);
    expected.extend(b"TA1|000000042|240315|0915|A|000\nIEA|0|000000077\n");
    assert_eq!(given, Answer::Acknowledged(expected));
}

#[test]
fn refusal_15_is_given_when_isa14_is_not_1() {
    for isa14 in [b'0', b' ', b'Y', b'I', b'2', b'!'] {
        assert_eq!(number_of_ta1(&with_byte(100, isa14)), 15, "{isa14}");
    }
}

#[test]
fn refusals_1_to_5_come_before_15() {
    let refused = |date, interchange: &[u8]| {
        answer_interchange(interchange, BUFFER, date, TIME, CONTROL).number()
    };
    let mut unwanted = with_byte(100, b'0');
    assert_eq!(refused(20240230, &unwanted), 1);
    assert_eq!(refused(DATE, &unwanted[..105]), 2);
    for (offset, byte, number) in [(0, b'X', 3), (104, b'A', 4), (104, b'*', 4), (4, 7, 5)] {
        let as_it_was = std::mem::replace(&mut unwanted[offset], byte);
        assert_eq!(refused(DATE, &unwanted), number, "{offset} {byte}");
        unwanted[offset] = as_it_was;
    }
    for (offset, byte) in [(100, b'*'), (100, 0), (100, b'>'), (100, b'~'), (100, 127)] {
        assert_eq!(number_of_ta1(&with_byte(offset, byte)), 5, "{byte}");
    }
}

#[test]
fn faults_of_the_envelope_are_not_looked_at_before_15() {
    let unwanted = with_iea("IEA*2~").replace("*1*T*>", "*0*T*>");
    assert_eq!(number_of_ta1(unwanted.as_bytes()), 15);
    assert_eq!(number_of_ta1(&unwanted.as_bytes()[..106]), 15);
    assert_eq!(number_of_ta1(&unwanted.as_bytes()[..120]), 15);
}

#[test]
fn refusal_14_comes_last_and_has_the_length_needed() {
    let into = |interchange: &[u8], buffer| {
        let given = answer_interchange(interchange, buffer, DATE, TIME, CONTROL);
        (given.number(), given.length())
    };
    for interchange in [&clean(), &with_iea("IEA~"), WANTING_TA1] {
        let interchange = interchange.as_bytes();
        for short in [0, 1, TA1_LENGTH - 1] {
            assert_eq!(into(interchange, short), (14, TA1_LENGTH), "{short}");
        }
        for enough in [TA1_LENGTH, TA1_LENGTH + 1] {
            assert_eq!(into(interchange, enough), (0, TA1_LENGTH), "{enough}");
        }
    }
    assert_eq!(into(&with_byte(100, b'0'), 0), (15, 0));
    assert_eq!(into(&with_byte(100, 0), 0), (5, 0));
}

/// What the operator wants: a 997 only where TA1 would say A.
fn agree(case: &Case) -> bool {
    let told = case.answer_interchange();
    let verdict_and_note = told.response().get(132..137);
    match (verdict_and_note, case.answer().number()) {
        (Some([b'A', _, b'0', b'0', b'0']), 0 | 9..=14) => true,
        (Some([b'R', _, b'0', b'2', b'3']), 6) => true,
        (Some([b'R', _, b'0', b'2', b'2']), 7 | 8) => true,
        (Some([b'R', _, b'0', b'0' | b'2', b'1']), 8) => true,
        (None, number @ 1..=5) => number == told.number(),
        _ => false,
    }
}

#[test]
fn the_two_entries_agree_where_ta1_is_wanted_and_has_room() {
    for mut case in cases(990).take(20_000) {
        if let Some(isa14) = case.interchange.get_mut(100) {
            *isa14 = b'1';
        }
        case.buffer_length = case.buffer_length.max(TA1_LENGTH);
        assert!(agree(&case), "{case:?}");
    }
}
