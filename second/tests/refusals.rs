//! Each refusal number: when it is given, when not, and in which order.

mod common;

use common::*;
use second::answer;

fn clean() -> String {
    after_gs(&format!("{CLEAN}GE*1*42~"))
}

/// The number given to the clean interchange under other caller's numbers.
fn number_for(date: u32, time: u32, control: u32) -> u8 {
    answer(clean().as_bytes(), BUFFER, date, time, control).number()
}

/// The clean interchange with one byte changed.
fn with_byte(offset: usize, byte: u8) -> Vec<u8> {
    let mut bytes = clean().into_bytes();
    bytes[offset] = byte;
    bytes
}

/// The same under an ISA12 by which ISA11 is text.
fn with_byte_in_00401(offset: usize, byte: u8) -> Vec<u8> {
    let mut bytes = clean().replace("*00601*", "*00401*").into_bytes();
    bytes[offset] = byte;
    bytes
}

/// The clean interchange with its three delimiters changed throughout.
fn delimited(element: u8, component: u8, terminator: u8) -> Vec<u8> {
    let change = |byte: u8| match byte {
        b'*' => element,
        b'>' => component,
        b'~' => terminator,
        other => other,
    };
    clean().bytes().map(change).collect()
}

fn with_gs(gs: &str) -> String {
    format!("{ISA}{gs}{CLEAN}GE*1*42~{IEA}")
}

fn with_iea(iea: &str) -> String {
    format!("{ISA}{GS}{CLEAN}GE*1*42~{iea}")
}

#[test]
fn the_clean_interchange_is_answered() {
    assert_eq!(number(&clean()), 0);
}

#[test]
fn refusal_1_date() {
    for good in [20240315, 99991231, 101, 20240229, 1231] {
        assert_eq!(number_for(good, TIME, CONTROL), 0, "{good}");
    }
    let bad = [
        0,
        100,
        1232,
        1301,
        20240300,
        20240332,
        20240015,
        20241315,
        99991232,
        100000101,
        120240315,
        u32::MAX,
    ];
    for date in bad {
        assert_eq!(number_for(date, TIME, CONTROL), 1, "{date}");
    }
}

#[test]
fn refusal_1_time() {
    for good in [0, 59, 100, 2359] {
        assert_eq!(number_for(DATE, good, CONTROL), 0, "{good}");
    }
    for bad in [60, 99, 2360, 2400, 10000, 100_000, u32::MAX] {
        assert_eq!(number_for(DATE, bad, CONTROL), 1, "{bad}");
    }
}

#[test]
fn refusal_1_control_number() {
    for good in [1, 999_999_999] {
        assert_eq!(number_for(DATE, TIME, good), 0, "{good}");
    }
    for bad in [0, 1_000_000_000, u32::MAX] {
        assert_eq!(number_for(DATE, TIME, bad), 1, "{bad}");
    }
}

#[test]
fn refusal_2_size() {
    assert_eq!(ask(b"").number(), 2);
    assert_eq!(ask(&clean().as_bytes()[..105]).number(), 2);
    assert_eq!(ask(&clean().as_bytes()[..106]).number(), 7);
    let filled_to = |length: usize| {
        let filler = length - after_gs("ST*990*0001~B1*ABCD*~SE*3*0001~GE*1*42~").len();
        let b102 = "X".repeat(filler);
        after_gs(&format!("ST*990*0001~B1*ABCD*{b102}~SE*3*0001~GE*1*42~"))
    };
    assert_eq!(filled_to(65_536).len(), 65_536);
    assert_eq!(number(&filled_to(65_536)), 0);
    assert_eq!(number(&filled_to(65_537)), 2);
}

#[test]
fn refusal_3_separators() {
    for offset in [0, 1, 2] {
        assert_eq!(ask(&with_byte(offset, b'X')).number(), 3, "{offset}");
        assert_eq!(ask(&with_byte(offset, b'a')).number(), 3, "{offset}");
    }
    let separators = [
        3, 6, 17, 20, 31, 34, 50, 53, 69, 76, 81, 83, 89, 99, 101, 103,
    ];
    for offset in separators {
        assert_eq!(ask(&with_byte(offset, b'|')).number(), 3, "{offset}");
    }
}

#[test]
fn refusal_4_delimiters() {
    for byte in *b"azAZ09 " {
        assert_eq!(ask(&delimited(byte, b'>', b'~')).number(), 4, "{byte}");
        assert_eq!(ask(&delimited(b'*', byte, b'~')).number(), 4, "{byte}");
        assert_eq!(ask(&delimited(b'*', b'>', byte)).number(), 4, "{byte}");
    }
    assert_eq!(ask(&delimited(b'*', b'*', b'~')).number(), 4);
    assert_eq!(ask(&delimited(b'*', b'>', b'*')).number(), 4);
    assert_eq!(ask(&delimited(b'*', b'>', b'>')).number(), 4);
}

#[test]
fn any_byte_but_a_letter_a_digit_or_a_space_may_be_a_delimiter() {
    let (one, two) = (1, 2);
    for byte in (0..=255u8).filter(|&byte| byte != one && byte != two) {
        let legal = !byte.is_ascii_alphanumeric() && byte != b' ';
        let expected = if legal { 0 } else { 4 };
        for interchange in [
            delimited(byte, one, two),
            delimited(one, byte, two),
            delimited(one, two, byte),
        ] {
            assert_eq!(ask(&interchange).number(), expected, "{byte}");
        }
    }
}

#[test]
fn refusal_5_bytes_of_isa() {
    let separators = [
        3, 6, 17, 20, 31, 34, 50, 53, 69, 76, 81, 83, 89, 99, 101, 103,
    ];
    for offset in (4..103).filter(|offset| !separators.contains(offset)) {
        for byte in [0, 31, 127, 128, 255, b'*', b'>', b'~'] {
            let number = ask(&with_byte_in_00401(offset, byte)).number();
            assert_eq!(number, 5, "{byte} at {offset}");
        }
    }
}

#[test]
fn refusal_5_isa13_and_isa15() {
    for offset in 90..99 {
        assert_eq!(ask(&with_byte(offset, b' ')).number(), 5, "{offset}");
        assert_eq!(ask(&with_byte(offset, b'A')).number(), 5, "{offset}");
    }
    for usage in *b"PTI" {
        assert_eq!(ask(&with_byte(102, usage)).number(), 0);
    }
    for usage in *b"pXA 0" {
        assert_eq!(ask(&with_byte(102, usage)).number(), 5);
    }
}

#[test]
fn other_fields_of_isa_are_checked_for_their_bytes_only() {
    // ISA01, the date, the time, ISA11, ISA12 and ISA14.
    for offset in [4, 70, 77, 82, 84, 100] {
        for byte in *b" z^!" {
            let given = ask(&with_byte_in_00401(offset, byte));
            assert_eq!(given.number(), 0, "{offset}");
        }
    }
}

#[test]
fn refusal_6_last_byte() {
    assert_eq!(number(&format!("{}\n", clean())), 6);
    assert_eq!(number(&format!("{} ", clean())), 6);
    assert_eq!(number(clean().strip_suffix('~').unwrap()), 6);
}

#[test]
fn refusal_7_order_of_the_envelope() {
    let outside = [
        String::new(),
        GS.to_string(),
        IEA.to_string(),
        format!("{IEA}{GS}"),
        format!("{GS}GE*1*42~"),
        format!("{CLEAN}GE*1*42~{IEA}"),
        format!("{GS}{CLEAN}GE*1*42~"),
        format!("{GS}{CLEAN}GE*1*42~{IEA}TA1~"),
        format!("{GS}{CLEAN}GE*1*42~{IEA}~"),
        format!("{GS}{CLEAN}GE*1*42~~{IEA}"),
        format!("~{GS}{CLEAN}GE*1*42~{IEA}"),
        format!("TA1~{GS}{CLEAN}GE*1*42~{IEA}"),
        format!("{GS}{GS}{CLEAN}GE*1*42~{IEA}"),
        format!("{GS}{CLEAN}GE*1*42~GE*1*42~{IEA}"),
        format!("{GS}{CLEAN}GE*1*42~{CLEAN}{IEA}"),
        format!("{GS}GE*1*42~{CLEAN}{IEA}"),
        format!("{GS}{CLEAN}GE*1*42~{IEA}{IEA}"),
        format!("{GS}{CLEAN}ISA~GE*1*42~{IEA}"),
        format!("{GS}ST*990*0001~IEA~SE*3*0001~GE*1*42~{IEA}"),
        format!("{GS}ST*990*0001~GS~SE*3*0001~GE*1*42~{IEA}"),
        format!("\n{GS}{CLEAN}GE*1*42~{IEA}"),
    ];
    for segments in outside {
        assert_eq!(number(&after_isa(&segments)), 7, "{segments}");
    }
}

#[test]
fn a_missing_ge_is_no_refusal() {
    assert_eq!(number(&after_gs(CLEAN)), 0);
}

#[test]
fn refusal_8_iea() {
    for good in ["1", "01", "00001"] {
        assert_eq!(number(&with_iea(&format!("IEA*{good}*000000042~"))), 0);
    }
    for bad in ["", "0", "2", "000001", "-1", "1 ", "A", "10"] {
        let iea = format!("IEA*{bad}*000000042~");
        assert_eq!(number(&with_iea(&iea)), 8, "{iea}");
    }
    let bad = [
        "IEA~",
        "IEA*1~",
        "IEA*1*~",
        "IEA*1*000000042*~",
        "IEA*1*000000042*X~",
        "IEA*1*42~",
        "IEA*1*000000043~",
        "IEA*1*0000000042~",
        "IEA*1*000000042 ~",
    ];
    for iea in bad {
        assert_eq!(number(&with_iea(iea)), 8, "{iea}");
    }
}

#[test]
fn refusal_9_elements_of_gs() {
    let good: [(usize, &[&str]); 8] = [
        (1, &["GF", "SM", "IM", "00", "G7"]),
        (2, &["AB", "ABCDEFGHIJKLMNO", "  ", "a.b"]),
        (3, &["AB", "ABCDEFGHIJKLMNO", "  ", "a.b"]),
        (4, &["20241231", "00000101", "20240229"]),
        (5, &["0000", "2359", "235959", "2359599", "23595999"]),
        (6, &["0", "1", "000000042", "999999999"]),
        (7, &["X", "T", "XX", " "]),
        (8, &["0", "006010", "006010ABCDEF", "zz"]),
    ];
    let bad: [(usize, &[&str]); 8] = [
        (1, &["", "G", "GFF", "gf", "G ", "G>"]),
        (2, &["", "A", "ABCDEFGHIJKLMNOP", "A>B", "A\x7f"]),
        (3, &["", "A", "ABCDEFGHIJKLMNOP", "A>B", "A\n"]),
        (
            4,
            &["", "240315", "20240015", "20241301", "20240300", "2024030A"],
        ),
        (
            5,
            &[
                "",
                "2400",
                "2360",
                "235960",
                "12345",
                "123",
                "123456789",
                "12:00",
            ],
        ),
        (6, &["", "1234567890", "-1", "4 2", "A"]),
        (7, &["", "XXX", ">", "\t"]),
        (8, &["", "006010ABCDEFG", "006010>", "006010\0"]),
    ];
    let with = |place: usize, value: &str| {
        let mut parts: Vec<&str> = GS.trim_end_matches('~').split('*').collect();
        parts[place] = value;
        with_gs(&format!("{}~", parts.join("*")))
    };
    for (place, values) in good {
        for value in values {
            // GE02 is held against GS06 in the verdict, not here.
            assert_eq!(number(&with(place, value)), 0, "GS0{place} {value}");
        }
    }
    for (place, values) in bad {
        for value in values {
            assert_eq!(number(&with(place, value)), 9, "GS0{place} {value}");
        }
    }
}

#[test]
fn refusal_9_gs_has_exactly_eight_elements() {
    let seven = "GS*GF*CARRA*BROKB*20240315*0915*42*X~";
    let nine = "GS*GF*CARRA*BROKB*20240315*0915*42*X*006010*~";
    assert_eq!(number(&with_gs(seven)), 9);
    assert_eq!(number(&with_gs(nine)), 9);
    assert_eq!(number(&with_gs("GS~")), 9);
}

#[test]
fn refusal_10_acknowledgments_are_not_acknowledged() {
    assert_eq!(number(&with_gs(&GS.replace("GF", "FA"))), 10);
    assert_eq!(number(&with_gs(&GS.replace("GF", "FB"))), 0);
}

#[test]
fn refusal_11_segments_outside_every_set() {
    let outside = [
        format!("B1*ABCD~{CLEAN}"),
        format!("{CLEAN}B1*ABCD~"),
        format!("{CLEAN}SE*3*0001~"),
        format!("{CLEAN}~"),
        format!("~{CLEAN}"),
        "SE*2*0001~".to_string(),
        format!("{CLEAN}N1~{CLEAN}"),
        "st*990*0001~SE*2*0001~".to_string(),
    ];
    for group in outside {
        let with_ge = format!("{group}GE*1*42~");
        assert_eq!(number(&after_gs(&with_ge)), 11, "{group}");
        assert_eq!(number(&after_gs(&group)), 11, "{group} without GE");
    }
}

#[test]
fn refusal_12_no_set() {
    assert_eq!(number(&after_gs("")), 12);
    assert_eq!(number(&after_gs("GE*0*42~")), 12);
}

#[test]
fn refusal_13_headers_of_sets() {
    let good = [
        "990*0001",
        "000*0001",
        "990*123456789",
        "990* . a",
        "990*0001*X*Y",
    ];
    for header in good {
        let group = format!("{CLEAN}ST*{header}~SE*2*0001~GE*2*42~");
        assert_eq!(number(&after_gs(&group)), 0, "{header}");
    }
    let bad = [
        "*0001",
        "99*0001",
        "9900*0001",
        "99A*0001",
        "-90*0001",
        "990",
        "990*",
        "990*001",
        "990*1234567890",
        "990*00>1",
        "990*000\x7f",
    ];
    for header in bad {
        let group = format!("{CLEAN}ST*{header}~SE*2*0001~GE*2*42~");
        assert_eq!(number(&after_gs(&group)), 13, "{header}");
    }
    assert_eq!(number(&after_gs("ST~")), 13);
}

#[test]
fn refusal_13_looks_at_sets_of_unsupported_groups_too() {
    let unsupported = GS.replace("GF", "IM");
    let group = format!("{ISA}{unsupported}{CLEAN}ST*9X9*0002~GE*2*42~{IEA}");
    assert_eq!(number(&group), 13);
}

#[test]
fn refusal_14_gives_the_length_needed() {
    let whole = ask(clean().as_bytes());
    let needed = whole.length();
    assert_eq!(needed, whole.response().len());
    let into = |length| answer(clean().as_bytes(), length, DATE, TIME, CONTROL);
    assert_eq!(into(needed), whole);
    for short in [needed - 1, 106, 1, 0] {
        let refused = into(short);
        assert_eq!(refused.number(), 14);
        assert_eq!(refused.length(), needed);
        assert_eq!(refused.response(), b"");
    }
}

#[test]
fn other_refusals_have_length_0() {
    for interchange in [after_gs(""), String::new(), ISA.to_string()] {
        let refused = ask(interchange.as_bytes());
        assert_ne!(refused.number(), 0);
        assert_eq!(refused.length(), 0);
        assert_eq!(refused.response(), b"");
    }
}

/// From the last check to the first, one more fault at a time: the lower
/// number is always the one given.
#[test]
fn the_first_refusal_that_applies_is_given() {
    let faulty_header = after_gs("ST*99*0001~SE*2*0001~GE*1*42~");
    let into_nothing = |text: &str| answer(text.as_bytes(), 0, DATE, TIME, CONTROL).number();
    assert_eq!(into_nothing(&clean()), 14);
    assert_eq!(into_nothing(&faulty_header), 13);
    let stray = after_gs("ST*99*0001~SE*2*0001~B1~GE*1*42~");
    assert_eq!(into_nothing(&stray), 11);
    let acknowledgment = stray.replace("GS*GF", "GS*FA");
    assert_eq!(into_nothing(&acknowledgment), 10);
    let late = acknowledgment.replace("*0915*42", "*2400*42");
    assert_eq!(into_nothing(&late), 9);
    let miscounted = late.replace("IEA*1", "IEA*2");
    assert_eq!(into_nothing(&miscounted), 8);
    let disordered = miscounted.replace("GE*1*42~", "GE*1*42~GE*1*42~");
    assert_eq!(into_nothing(&disordered), 7);
    let unended = format!("{disordered}\n");
    assert_eq!(into_nothing(&unended), 6);
    let bad_usage = unended.replace("*0*T*>~", "*0*X*>~");
    assert_eq!(into_nothing(&bad_usage), 5);
    let equal = bad_usage.replace("*>~", "*~~");
    assert_eq!(into_nothing(&equal), 4);
    let renamed = equal.replacen("ISA", "ISB", 1);
    assert_eq!(into_nothing(&renamed), 3);
    assert_eq!(into_nothing(&renamed[..105]), 2);
    assert_eq!(
        answer(&renamed.as_bytes()[..105], 0, 0, TIME, CONTROL).number(),
        1
    );
}

#[test]
fn refusal_11_goes_before_12() {
    assert_eq!(number(&after_gs("B1*ABCD~GE*0*42~")), 11);
}
