//! The whole exchange as `ack` and `ta1` do it.

mod common;

use common::*;
use second::exchange::exchange;
use second::{answer, answer_interchange};

const LINE: &str = "20240315 0930 77\n";

fn clean() -> String {
    after_gs(&format!("{CLEAN}GE*1*42~"))
}

fn printed(input: &str) -> String {
    String::from_utf8(exchange(answer, input.as_bytes())).unwrap()
}

fn printed_by_ta1(input: &str) -> String {
    String::from_utf8(exchange(answer_interchange, input.as_bytes())).unwrap()
}

#[test]
fn the_worked_exchange() {
    let input = "20240315 0930 77\n\
        ISA*00*          *00*          *ZZ*CARRIERA       *ZZ*BROKERB        *240315*0915*U*00601*000000042*0*T*>~\
        GS*GF*CARRA*BROKB*20240315*0915*42*X*006010~\
        ST*990*0001~B1*ABCD*L100*20240315*A~SE*3*0001~\
        ST*990*0002~B1*ABCDE*L101*20241315*Q~L11**CN~SE*3*0002~\
        GE*2*42~IEA*1*000000042~";
    let expected =
        "ISA*00*          *00*          *ZZ*BROKERB        *ZZ*CARRIERA       *240315*0930*U*00401*000000077*0*T*>~\
        GS*FA*BROKB*CARRA*20240315*0930*77*X*004010~\
        ST*997*0001~AK1*GF*42~AK2*990*0001~AK5*A~\
        AK2*990*0002~AK3*B1*2**8~AK4*1*140*5*ABCDE~AK4*3*373*8*20241315~AK4*4*558*7*Q~\
        AK3*L11*3**8~AK4*1*127*2~AK5*R*4*5~\
        AK9*P*2*2*1~SE*14*0001~GE*1*77~IEA*1*000000077~";
    assert_eq!(printed(input), expected);
}

#[test]
fn a_response_is_printed_with_nothing_after_it() {
    let output = exchange(answer, format!("{LINE}{}", clean()).as_bytes());
    assert_eq!(output, ask(clean().as_bytes()).response());
}

#[test]
fn a_refusal_is_printed_with_its_number_and_lf() {
    assert_eq!(printed(LINE), "refused 2\n");
    assert_eq!(printed(&format!("{LINE}{ISA}")), "refused 7\n");
    assert_eq!(printed(&format!("{LINE}{}\n", clean())), "refused 6\n");
}

#[test]
fn the_control_number_has_1_to_9_digits() {
    for control in ["1", "000000077", "999999999"] {
        let output = printed(&format!("20240315 0930 {control}\n{}", clean()));
        let value: u32 = control.parse().unwrap();
        assert!(output.ends_with(&format!("GE*1*{value}~IEA*1*{value:09}~")));
    }
}

#[test]
fn a_bad_first_line_is_refusal_1() {
    let bad = [
        "",
        "\n",
        "20240315 0930 77",
        "20240315 0930 77\r\n",
        "20240315 0930 77 \n",
        " 20240315 0930 77\n",
        "20240315  0930 77\n",
        "20240315 0930  77\n",
        "20240315\t0930\t77\n",
        "20240315 0930\n",
        "20240315 0930 \n",
        "20240315 0930 77 1\n",
        "2024315 0930 77\n",
        "020240315 0930 77\n",
        "20240315 930 77\n",
        "20240315 00930 77\n",
        "20240315 0930 0000000077\n",
        "20240315 0930 1000000000\n",
        "20240315 0930 -77\n",
        "20240315 0930 +77\n",
        "2024-3-5 0930 77\n",
        "20240315 09:0 77\n",
        "20240315 0930 7A\n",
        "\n20240315 0930 77\n",
    ];
    for line in bad {
        let input = format!("{line}{}", clean());
        assert_eq!(printed(&input), "refused 1\n", "{line:?}");
        assert_eq!(printed_by_ta1(&input), "refused 1\n", "{line:?}");
    }
}

#[test]
fn numbers_out_of_range_in_a_well_formed_line_are_refusal_1() {
    for line in [
        "20241315 0930 77",
        "20240315 2400 77",
        "20240315 0930 0",
        "00000000 0930 77",
    ] {
        let input = format!("{line}\n{}", clean());
        assert_eq!(printed(&input), "refused 1\n", "{line}");
        assert_eq!(printed_by_ta1(&input), "refused 1\n", "{line}");
    }
}

#[test]
fn ta1_prints_its_response_or_its_refusal() {
    assert_eq!(
        printed_by_ta1(&format!("{LINE}{}", clean())),
        "refused 15\n"
    );
    let wanting_ta1 = clean().replace("*0*T*>", "*1*T*>");
    let expected =
        "ISA*00*          *00*          *ZZ*BROKERB        *ZZ*CARRIERA       *240315*0930*U*00401*000000077*0*T*>~\
        TA1*000000042*240315*0915*A*000~IEA*0*000000077~";
    assert_eq!(printed_by_ta1(&format!("{LINE}{wanting_ta1}")), expected);
}

#[test]
fn a_response_over_65536_bytes_is_refusal_14() {
    // Each empty segment is noted as AK3*ZZZ*n**1, at least 13 bytes.
    let with_empty_segments = |count: usize| {
        let empty = "~".repeat(count);
        let group = format!("ST*990*0001~{empty}SE*2*0001~GE*1*42~");
        printed(&format!("{LINE}{}", after_gs(&group)))
    };
    assert!(with_empty_segments(4_000).len() > 4_000 * 13);
    assert_eq!(with_empty_segments(5_100), "refused 14\n");
}
