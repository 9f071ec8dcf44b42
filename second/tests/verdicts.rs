//! Verdicts on sets and groups (AK5, AK9) and the shape of the response.

mod common;

use common::*;
use second::answer;

fn group_with(ge: &str) -> String {
    after_gs(&format!("{CLEAN}{ge}"))
}

#[test]
fn se02_is_compared_as_bytes() {
    let of = |trailer: &str| notes_of_set(&format!("ST*990*0001~B1*ABCD~{trailer}~"));
    assert_eq!(of("SE*3*0002"), "AK5*R*3~");
    assert_eq!(of("SE*3*00001"), "AK5*R*3~");
    assert_eq!(of("SE*4*00001"), "AK5*R*3*4~");
}

#[test]
fn with_a_missing_trailer_neither_3_nor_4_is_given() {
    let sets = "ST*990*0001~B1*AB~ST*990*0002~B1*AB~SE*3*0002~ST*990*0003~B1*AB~";
    let expected = "AK1*GF*42~AK2*990*0001~AK5*R*2~AK2*990*0002~AK5*A~\
                    AK2*990*0003~AK5*R*2~AK9*P*3*3*1~";
    assert_eq!(notes_of_sets(GS, sets), expected);
}

#[test]
fn an_unsupported_set_has_no_ak3_but_keeps_its_other_codes() {
    let sets = "ST*204*0001~N1~SE*3*0001~ST*204*0001~N1~SE*9*0002~ST*204*0001~N1~";
    let expected = "AK1*GF*42~AK2*204*0001~AK5*R*1~AK2*204*0001~AK5*R*1*3*4*23~\
                    AK2*204*0001~AK5*R*1*2*23~AK9*R*3*3*0~";
    assert_eq!(notes_of_sets(GS, sets), expected);
}

#[test]
fn a_control_number_of_any_earlier_set_is_not_unique() {
    let set = |control: &str| format!("ST*990*{control}~B1*AB~SE*3*{control}~");
    let sets = ["0001", "0002", "00001", "0001", "0002", "0001"].map(set);
    let ak5: Vec<String> = notes_of_sets(GS, &sets.concat())
        .split('~')
        .filter(|segment| segment.starts_with("AK5"))
        .map(str::to_string)
        .collect();
    assert_eq!(
        ak5,
        ["AK5*A", "AK5*A", "AK5*A", "AK5*R*23", "AK5*R*23", "AK5*R*23"]
    );
}

#[test]
fn a_rejected_or_unsupported_set_still_is_an_earlier_one() {
    let sets = "ST*204*0001~SE*2*0001~ST*990*0001~B1*AB~SE*3*0001~";
    let expected = "AK1*GF*42~AK2*204*0001~AK5*R*1~AK2*990*0001~AK5*R*23~AK9*R*2*2*0~";
    assert_eq!(notes_of_sets(GS, sets), expected);
}

#[test]
fn there_can_be_four_set_codes() {
    let sets = "ST*990*0001~B1*AB~SE*3*0001~ST*990*0001~SE*9*0002~";
    let expected = "AK1*GF*42~AK2*990*0001~AK5*A~\
                    AK2*990*0001~AK3*B1*2**3~AK5*R*3*4*5*23~AK9*P*2*2*1~";
    assert_eq!(notes_of_sets(GS, sets), expected);
}

#[test]
fn the_group_is_accepted_partly_accepted_or_rejected() {
    let faulty = "ST*990*0002~SE*2*0002~";
    assert!(notes_of_sets(GS, CLEAN).ends_with("AK9*A*1*1*1~"));
    assert!(notes_of_sets(GS, &format!("{CLEAN}{faulty}")).ends_with("AK9*P*2*2*1~"));
    assert!(notes_of_sets(GS, faulty).ends_with("AK9*R*1*1*0~"));
}

#[test]
fn a_group_code_rejects_the_group_while_its_sets_stay_accepted() {
    let notes = notes_of(&group_with("GE*1*43~"));
    let expected = "AK1*GF*42~AK2*990*0001~AK5*A~AK9*R*1*1*0*4~";
    assert_eq!(notes, expected);
}

#[test]
fn gf_and_sm_are_supported_and_nothing_else() {
    let under = |identifier: &str| {
        let gs = GS.replace("GF", identifier);
        notes_of_sets(&gs, CLEAN)
    };
    assert!(under("SM").ends_with("AK5*A~AK9*A*1*1*1~"));
    let expected = "AK1*IM*42~AK2*990*0001~AK5*R*1~AK9*R*1*1*0*1~";
    assert_eq!(under("IM"), expected);
}

#[test]
fn the_first_six_bytes_of_gs08_choose_the_table() {
    let under = |version: &str| {
        let gs = GS.replace("006010", version);
        notes_of_sets(&gs, CLEAN)
    };
    for known in ["006010", "006010ABCDEF", "004010", "004010 "] {
        assert!(under(known).ends_with("AK5*A~AK9*A*1*1*1~"), "{known}");
    }
    for unknown in ["005010", "00601", "6", "006O10", " 006010", "00401"] {
        let expected = "AK5*R*1~AK9*R*1*1*0*2~";
        assert!(under(unknown).ends_with(expected), "{unknown}");
    }
}

#[test]
fn group_codes_1_and_2_stand_together() {
    let gs = GS.replace("GF", "IM").replace("006010", "005010");
    assert!(notes_of_sets(&gs, CLEAN).ends_with("AK5*R*1~AK9*R*1*1*0*1*2~"));
    let without_ge = format!("{ISA}{gs}{CLEAN}{IEA}");
    assert_eq!(ak9_of(&without_ge), "AK9*R*1*1*0*1*2*3~");
    let wrong_ge = format!("{ISA}{gs}{CLEAN}GE~{IEA}");
    assert_eq!(ak9_of(&wrong_ge), "AK9*R*1*1*0*1*2*4*5~");
}

#[test]
fn a_missing_ge_is_3_and_neither_4_nor_5() {
    assert_eq!(ak9_of(&group_with("")), "AK9*R*1*1*0*3~");
}

#[test]
fn ge01_gives_ak902() {
    for (ge01, ak9) in [
        ("1", "AK9*A*1*1*1~"),
        ("000001", "AK9*A*1*1*1~"),
        ("0", "AK9*R*0*1*0*5~"),
        ("000000", "AK9*R*0*1*0*5~"),
        ("000123", "AK9*R*123*1*0*5~"),
        ("999999", "AK9*R*999999*1*0*5~"),
        ("0000001", "AK9*R*1*1*0*5~"),
        ("1234567", "AK9*R*1*1*0*5~"),
        ("-1", "AK9*R*1*1*0*5~"),
        ("1 ", "AK9*R*1*1*0*5~"),
        ("", "AK9*R*1*1*0*5~"),
    ] {
        assert_eq!(ak9_of(&group_with(&format!("GE*{ge01}*42~"))), ak9);
    }
}

#[test]
fn ge02_is_compared_as_bytes() {
    assert_eq!(ak9_of(&group_with("GE*1*042~")), "AK9*R*1*1*0*4~");
    assert_eq!(ak9_of(&group_with("GE*1*~")), "AK9*R*1*1*0*4~");
    assert_eq!(ak9_of(&group_with("GE*1~")), "AK9*R*1*1*0*4~");
    assert_eq!(ak9_of(&group_with("GE~")), "AK9*R*1*1*0*4*5~");
}

#[test]
fn elements_of_ge_past_the_second_are_not_read() {
    assert_eq!(ak9_of(&group_with("GE*1*42*~")), "AK9*A*1*1*1~");
    assert_eq!(ak9_of(&group_with("GE*1*42*>*\x01~")), "AK9*A*1*1*1~");
}

#[test]
fn ak1_echoes_gs06_as_received() {
    let gs = GS.replace("*42*", "*00042*");
    let notes = notes_of(&format!("{ISA}{gs}{CLEAN}GE*1*00042~{IEA}"));
    assert_eq!(notes, "AK1*GF*00042~AK2*990*0001~AK5*A~AK9*A*1*1*1~");
}

#[test]
fn ak2_echoes_st02_as_received() {
    let notes = notes_of_sets(GS, "ST*990* x.y ~B1*AB~SE*3* x.y ~");
    assert_eq!(notes, "AK1*GF*42~AK2*990* x.y ~AK5*A~AK9*A*1*1*1~");
}

#[test]
fn the_response_uses_the_delimiters_received() {
    let interchange = group_with("GE*1*42~");
    let change = |byte: u8| match byte {
        b'*' => 0x1d,
        b'>' => 0xff,
        b'~' => b'\n',
        other => other,
    };
    let changed: Vec<u8> = interchange.bytes().map(change).collect();
    let plain = ask(interchange.as_bytes());
    let expected: Vec<u8> = plain.response().iter().copied().map(change).collect();
    assert_eq!(ask(&changed).response(), expected);
}

#[test]
fn isa_of_the_response_turns_sender_and_receiver_and_keeps_isa15() {
    let interchange = "ISA*03*AUTH      *01*SECRET    *02*CARRIERA       *32*BROKERB        \
                       *240315*0915*^*00601*000000042*1*P*>~"
        .to_string()
        + &group_with("GE*1*42~")[106..];
    let given = answer(interchange.as_bytes(), BUFFER, 101, 5, 999_999_999);
    let expected = "ISA*00*          *00*          *32*BROKERB        *02*CARRIERA       \
                    *000101*0005*U*00401*999999999*0*P*>~\
                    GS*FA*BROKB*CARRA*00000101*0005*999999999*X*004010~\
                    ST*997*0001~AK1*GF*42~AK2*990*0001~AK5*A~AK9*A*1*1*1~SE*6*0001~\
                    GE*1*999999999~IEA*1*999999999~";
    assert_eq!(String::from_utf8_lossy(given.response()), expected);
}
