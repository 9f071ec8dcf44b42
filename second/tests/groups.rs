//! Many groups in one interchange (change request 6).

mod common;

use common::*;
use second::{answer, Answer};

/// GS with this control number and edition 006010.
fn gs(control: usize) -> String {
    format!("GS*GF*CARRA*BROKB*20240315*0915*{control}*X*006010~")
}

/// A group of one clean set.
fn clean_group(control: usize) -> String {
    format!("{}{CLEAN}GE*1*{control}~", gs(control))
}

/// So many clean groups, with control numbers from 1 on.
fn clean_groups(count: usize) -> String {
    (1..=count).map(clean_group).collect()
}

/// A whole interchange of these groups, counted by IEA01.
fn interchange(groups: &str, iea01: impl ToString) -> String {
    let iea01 = iea01.to_string();
    after_isa(&format!("{groups}IEA*{iea01}*000000042~"))
}

fn with_ta1(interchange: &str) -> String {
    interchange.replace("*0*T*>", "*1*T*>")
}

/// Verdict and note code of TA1.
fn ta1_of(interchange: &str) -> String {
    let given = ask_for_ta1(with_ta1(interchange).as_bytes());
    String::from_utf8(given.response()[132..137].to_vec()).unwrap()
}

/// What both entries say of these groups with a good IEA: the number of the
/// first, and verdict and note code of the second.
fn told(groups: &str, count: usize) -> (u8, String) {
    let interchange = interchange(groups, count);
    (number(&interchange), ta1_of(&interchange))
}

fn refusal_7() -> (u8, String) {
    (7, "R*022".to_string())
}

fn response(interchange: &str) -> String {
    let given = ask(interchange.as_bytes());
    assert_eq!(given.number(), 0, "{interchange}");
    String::from_utf8(given.response().to_vec()).unwrap()
}

/// The 997s of a response, each from ST to SE.
fn acknowledgments(response: &str) -> Vec<String> {
    let start = response.find("ST*997").expect("ST");
    let end = response.find("GE*").expect("GE");
    response[start..end]
        .split_inclusive('~')
        .collect::<Vec<_>>()
        .chunk_by(|_, next| !next.starts_with("ST*997"))
        .map(|segments| segments.concat())
        .collect()
}

/// The 997 of one clean set, as the one of this number.
fn clean_997(number: usize, control: usize) -> String {
    format!("ST*997*{number:04}~AK1*GF*{control}~AK2*990*0001~AK5*A~AK9*A*1*1*1~SE*6*{number:04}~")
}

const HEAD: &str = "ISA*00*          *00*          *ZZ*BROKERB        *ZZ*CARRIERA       \
                    *240315*0930*U*00401*000000077*0*T*>~\
                    GS*FA*BROKB*CARRA*20240315*0930*77*X*004010~";

#[test]
fn each_of_1_to_16_groups_gets_its_997() {
    for count in 1..=16 {
        let given = response(&interchange(&clean_groups(count), count));
        let all: String = (1..=count).map(|group| clean_997(group, group)).collect();
        let expected = format!("{HEAD}{all}GE*{count}*77~IEA*1*000000077~");
        assert_eq!(given, expected, "{count}");
    }
}

#[test]
fn seventeen_groups_are_refusal_7() {
    for iea01 in ["17", "16", "1", "0"] {
        let interchange = interchange(&clean_groups(17), iea01);
        assert_eq!(number(&interchange), 7, "{iea01}");
        assert_eq!(ta1_of(&interchange), "R*022", "{iea01}");
    }
    let open_end = format!("{}{}", clean_groups(16), gs(17));
    assert_eq!(told(&open_end, 17), refusal_7());
}

#[test]
fn only_whole_groups_stand_between_isa_and_iea() {
    let (one, two) = (clean_group(1), clean_group(2));
    let strays = ["~", "TA1~", "ST*990*0001~", CLEAN, "GE*1*1~", "ISA~", "\n~"];
    for stray in strays {
        for groups in [
            format!("{stray}{one}{two}"),
            format!("{one}{stray}{two}"),
            format!("{one}{two}{stray}"),
        ] {
            assert_eq!(told(&groups, 2), refusal_7(), "{groups}");
        }
    }
    for groups in [
        format!("{}{CLEAN}{two}", gs(1)),
        format!("{}{two}", gs(1)),
        format!("{one}{}{}", gs(2), gs(3)),
        format!("{one}{CLEAN}GE*1*2~"),
        format!("{one}IEA*1*000000042~{two}"),
        format!("{one}{}{CLEAN}ISA~GE*1*2~", gs(2)),
        format!("{one}{}{CLEAN}IEA~GE*1*2~", gs(2)),
    ] {
        for count in 1..=3 {
            assert_eq!(told(&groups, count), refusal_7(), "{groups}");
        }
    }
    assert_eq!(told("", 0), refusal_7());
}

#[test]
fn the_last_ge_alone_may_be_missing() {
    let groups = format!("{}{}{CLEAN}", clean_group(1), gs(2));
    let given = response(&interchange(&groups, 2));
    let second = "ST*997*0002~AK1*GF*2~AK2*990*0001~AK5*A~AK9*R*1*1*0*3~SE*6*0002~";
    assert_eq!(
        acknowledgments(&given),
        [clean_997(1, 1), second.to_string()]
    );
    assert_eq!(ta1_of(&interchange(&groups, 2)), "A*000");
}

#[test]
fn iea01_is_the_number_of_groups_in_1_to_5_digits() {
    for count in [1, 2, 9, 10, 15, 16] {
        let groups = clean_groups(count);
        for width in 1..=5 {
            let good = interchange(&groups, format!("{count:0width$}"));
            assert_eq!(number(&good), 0, "{count} {width}");
            assert_eq!(ta1_of(&good), "A*000", "{count} {width}");
        }
        let hexadecimal = format!("{count:X}");
        for bad in [
            String::new(),
            (count - 1).to_string(),
            (count + 1).to_string(),
            format!("{count:06}"),
            format!("{}", count + 65_536),
            format!("{count} "),
            format!("+{count}"),
            format!("A{hexadecimal}"),
        ] {
            let interchange = interchange(&groups, &bad);
            assert_eq!(number(&interchange), 8, "{count} {bad}");
            assert_eq!(ta1_of(&interchange), "R*021", "{count} {bad}");
        }
    }
    let sixteen = interchange(&clean_groups(16), "10");
    assert_eq!(number(&sixteen), 8);
}

#[test]
fn one_as_the_count_of_two_groups_is_refusal_8() {
    let interchange = interchange(&clean_groups(2), 1);
    assert_eq!(number(&interchange), 8);
    assert_eq!(ta1_of(&interchange), "R*021");
}

/// A group that alone is refused with this number.
fn refused_group(number: u8) -> String {
    match number {
        9 => format!("{}{CLEAN}GE*1*7~", gs(7).replace("0915", "2400")),
        10 => format!("{}{CLEAN}GE*1*7~", gs(7).replace("GF", "FA")),
        11 => format!("{}{CLEAN}B1*ABCD~GE*1*7~", gs(7)),
        12 => format!("{}GE*0*7~", gs(7)),
        _ => format!("{}ST*990*1~SE*2*1~GE*1*7~", gs(7)),
    }
}

#[test]
fn a_refused_group_refuses_the_interchange() {
    for refused in 9..=13 {
        let (one, group) = (clean_group(1), refused_group(refused));
        for groups in [
            format!("{group}{one}{one}"),
            format!("{one}{group}{one}"),
            format!("{one}{one}{group}"),
        ] {
            let expected = (refused, "A*000".to_string());
            assert_eq!(told(&groups, 3), expected, "{groups}");
        }
    }
}

#[test]
fn each_group_is_checked_whole_before_the_next() {
    for first in 9..=13 {
        for later in 9..=13 {
            let groups = format!("{}{}", refused_group(first), refused_group(later));
            assert_eq!(told(&groups, 2).0, first, "{first} {later}");
            let groups = format!("{}{groups}", clean_group(1));
            assert_eq!(told(&groups, 3).0, first, "{first} {later}");
        }
    }
}

#[test]
fn seven_and_eight_come_before_the_refusals_of_groups() {
    for refused in 9..=13 {
        let groups = format!("{}{}", refused_group(refused), clean_group(1));
        assert_eq!(number(&interchange(&groups, 1)), 8);
        let groups = format!("{groups}TA1~");
        assert_eq!(number(&interchange(&groups, 2)), 7);
    }
}

#[test]
fn a_second_gs_without_a_set_is_refusal_12() {
    let groups = format!("{}{}", clean_group(1), gs(2));
    assert_eq!(told(&groups, 2), (12, "A*000".to_string()));
}

#[test]
fn gs_of_the_response_is_for_the_first_group() {
    let other = clean_group(2).replace("CARRA*BROKB", "OTHER*PARTY");
    let groups = format!("{}{other}", clean_group(1));
    assert!(response(&interchange(&groups, 2)).starts_with(HEAD));
    let groups = format!("{other}{}", clean_group(1));
    let head = HEAD.replace("BROKB*CARRA", "PARTY*OTHER");
    assert!(response(&interchange(&groups, 2)).starts_with(&head));
}

/// Groups of every kind, each right or wrong in its own way.
fn groups_of_every_kind() -> Vec<String> {
    let long = "X".repeat(120);
    vec![
        clean_group(1),
        format!("{}ST*990*0001~K1*A~SE*3*0001~GE*1*2~", gs(2)),
        format!("{GS_004010}ST*990*0001~B1*AB~K1*A~SE*4*0001~GE*1*42~"),
        clean_group(3).replace("GF", "IM"),
        clean_group(4).replace("006010", "005010"),
        format!("{}{CLEAN}{CLEAN}GE*2*5~", gs(5)),
        clean_group(6).replace("GE*1*6", "GE*7*8"),
        format!("{}ST*990*0001~ST*990*0002~N1~SE*3*0002~GE*2*7~", gs(7)),
        format!("{}ST*990*0001~B1*A*{long}~SE*3*0001~GE*1*8~", gs(8)),
        format!("{}{CLEAN}ST*204*0002~SE*2*0002~GE~", gs(9)),
    ]
}

#[test]
fn each_997_is_that_of_its_group_alone_but_for_st02_and_se02() {
    let mut groups = groups_of_every_kind();
    groups.push(format!("{}{CLEAN}", gs(10)));
    let given = response(&interchange(&groups.concat(), groups.len()));
    let found = acknowledgments(&given);
    assert_eq!(found.len(), groups.len());
    for ((count, group), found) in (1..).zip(&groups).zip(found) {
        let alone = response(&interchange(group, 1));
        let [alone] = &acknowledgments(&alone)[..] else {
            panic!("{alone}");
        };
        let renumbered = alone
            .replace("ST*997*0001~", &format!("ST*997*{count:04}~"))
            .strip_suffix("*0001~")
            .map(|start| format!("{start}*{count:04}~"));
        assert_eq!(Some(found), renumbered, "{group}");
    }
}

#[test]
fn control_numbers_are_compared_within_a_group() {
    let twice = format!("{}{CLEAN}{CLEAN}GE*2*2~", gs(2));
    let groups = format!("{}{twice}{}", clean_group(1), clean_group(1));
    let given = response(&interchange(&groups, 3));
    let second = "ST*997*0002~AK1*GF*2~AK2*990*0001~AK5*A~AK2*990*0001~AK5*R*23~\
                  AK9*P*2*2*1~SE*8*0002~";
    assert_eq!(
        acknowledgments(&given),
        [clean_997(1, 1), second.to_string(), clean_997(3, 1)]
    );
}

#[test]
fn refusal_14_looks_at_the_whole_response() {
    let interchange = interchange(&groups_of_every_kind().concat(), 10);
    let whole = ask(interchange.as_bytes());
    let needed = whole.length();
    let into = |length| answer(interchange.as_bytes(), length, DATE, TIME, CONTROL);
    assert_eq!(into(needed), whole);
    for short in [needed - 1, 200, 0] {
        let refused = into(short);
        assert_eq!((refused.number(), refused.length()), (14, needed));
    }
    assert!(matches!(whole, Answer::Acknowledged(_)));
}
