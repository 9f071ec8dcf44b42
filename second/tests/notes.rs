//! Notes on segments and elements (AK3, AK4) in whole sets.

mod common;

use common::*;

#[test]
fn a_late_b1_is_missing_where_passed_over_and_out_of_sequence_where_it_comes() {
    let set = "ST*990*0001~L11***T~B1*ABCD~SE*4*0001~";
    let expected = "AK3*B1*2**3~AK3*B1*3**7~AK5*R*5~";
    assert_eq!(notes_of_set(set), expected);
}

#[test]
fn a_segment_out_of_sequence_has_its_elements_checked() {
    let set = "ST*990*0001~B1*AB~L11***T~B1*A~SE*5*0001~";
    let expected = "AK3*B1*4**7*8~AK4*1*140*4*A~AK5*R*5~";
    assert_eq!(notes_of_set(set), expected);
}

#[test]
fn a_segment_beyond_its_maximum_has_its_elements_checked() {
    let set = "ST*990*0001~B1*AB~B1*A~B1*AB~SE*5*0001~";
    let expected = "AK3*B1*3**5*8~AK4*1*140*4*A~AK3*B1*4**5~AK5*R*5~";
    assert_eq!(notes_of_set(set), expected);
}

#[test]
fn a_passed_over_entry_is_noted_before_the_segment_itself() {
    let set = "ST*990*0001~L11*X~SE*3*0001~";
    let expected = "AK3*B1*2**3~AK3*L11*2**8~AK4*2*128*2~AK5*R*5~";
    assert_eq!(notes_of_set(set), expected);
    let at_trailer = "ST*990*0001~SE*2*0001*~";
    let expected = "AK3*B1*2**3~AK3*SE*2**8~AK4*3**3~AK5*R*5~";
    assert_eq!(notes_of_set(at_trailer), expected);
}

#[test]
fn a_missing_trailer_notes_b1_after_the_last_segment_and_never_se() {
    assert_eq!(notes_of_set("ST*990*0001~"), "AK3*B1*2**3~AK5*R*2*5~");
    assert_eq!(notes_of_set("ST*990*0001~B1*AB~"), "AK5*R*2~");
    let unknown = "ST*990*0001~N1~K1~";
    let expected = "AK3*N1*2**1~AK3*K1*3**6~AK3*B1*4**3~AK5*R*2*5~";
    assert_eq!(notes_of_set(unknown), expected);
    let with_l11 = "ST*990*0001~L11***T~";
    assert_eq!(notes_of_set(with_l11), "AK3*B1*2**3~AK5*R*2*5~");
}

#[test]
fn unrecognized_segments_count_but_do_not_move_the_place() {
    let set = "ST*990*0001~N1*X~B1*ABCD~REF~L11***T~N1~SE*7*0001~";
    let expected = "AK3*N1*2**1~AK3*REF*4**1~AK3*N1*6**1~AK5*R*5~";
    assert_eq!(notes_of_set(set), expected);
}

#[test]
fn an_id_that_is_none_is_echoed_as_zzz() {
    let ids = [
        "", "B", "b1", "l11", "B1XX", "B>", "B1\0", "\nB1", "B 1", "N-1", "ST ", "\u{e9}",
    ];
    for id in ids {
        let set = format!("ST*990*0001~B1*ABCD~{id}~SE*4*0001~");
        assert_eq!(notes_of_set(&set), "AK3*ZZZ*3**1~AK5*R*5~", "{id:?}");
    }
    for id in [
        "N1", "REF", "00", "9Z9", "B11", "L1", "ZZZ", "S5", "TA1", "AK1",
    ] {
        let set = format!("ST*990*0001~B1*ABCD~{id}~SE*4*0001~");
        let expected = format!("AK3*{id}*3**1~AK5*R*5~");
        assert_eq!(notes_of_set(&set), expected);
    }
}

#[test]
fn segments_with_code_1_or_6_have_no_element_check() {
    let set = "ST*990*0001~B1*ABCD~K1****>~N1*\x01~SE*5*0001~";
    let expected = "AK3*K1*3**6~AK3*N1*4**1~AK5*R*5~";
    assert_eq!(notes_of_set(set), expected);
}

#[test]
fn l11_is_not_in_004010_and_k1_not_in_006010() {
    let l11 = "ST*990*0001~B1*ABCD~L11***T~SE*4*0001~";
    let k1 = "ST*990*0001~B1*ABCD~K1*X~SE*4*0001~";
    assert_eq!(notes_of_set(l11), "AK5*A~");
    assert_eq!(notes_of_set_004010(l11), "AK3*L11*3**6~AK5*R*5~");
    assert_eq!(notes_of_set(k1), "AK3*K1*3**6~AK5*R*5~");
    assert_eq!(notes_of_set_004010(k1), "AK5*A~");
}

#[test]
fn ten_k1_pass_and_each_one_more_gets_5() {
    let with_k1 = |uses: usize| {
        let k1 = "K1*X~".repeat(uses);
        format!("ST*990*0001~B1*ABCD~{k1}SE*{}*0001~", uses + 3)
    };
    assert_eq!(notes_of_set_004010(&with_k1(10)), "AK5*A~");
    let expected = "AK3*K1*13**5~AK3*K1*14**5~AK5*R*5~";
    assert_eq!(notes_of_set_004010(&with_k1(12)), expected);
}

#[test]
fn a_late_b1_in_between_does_not_restart_the_count_of_k1() {
    let before = "K1*X~".repeat(9);
    let set = format!("ST*990*0001~B1*ABCD~{before}B1*ABCD~K1*X~K1*X~SE*15*0001~");
    let expected = "AK3*B1*12**7~AK3*K1*14**5~AK5*R*5~";
    assert_eq!(notes_of_set_004010(&set), expected);
}

#[test]
fn st_has_a_third_element_in_006010_only() {
    let set = "ST*990*0001*X~B1*ABCD~SE*3*0001~";
    assert_eq!(notes_of_set(set), "AK5*A~");
    let expected = "AK3*ST*1**8~AK4*3**3~AK5*R*5~";
    assert_eq!(notes_of_set_004010(set), expected);
}

#[test]
fn st_has_its_elements_checked() {
    let long = "X".repeat(36);
    let set = format!("ST*990*0001*{long}~B1*ABCD~SE*3*0001~");
    let expected = format!("AK3*ST*1**8~AK4*3*1705*5*{long}~AK5*R*5~");
    assert_eq!(notes_of_set(&set), expected);
    let fourth = "ST*990*0001**~B1*ABCD~SE*3*0001~";
    let expected = "AK3*ST*1**8~AK4*4**3~AK5*R*5~";
    assert_eq!(notes_of_set(fourth), expected);
}

#[test]
fn k1_has_one_mandatory_and_one_optional_element_of_one_reference_number() {
    let set = "ST*990*0001~B1*ABCD~K1~K1**X~K1*X*>~K1*X*Y*~SE*7*0001~";
    let expected = "AK3*K1*3**8~AK4*1*61*1~AK3*K1*4**8~AK4*1*61*1~\
                    AK3*K1*5**8~AK4*2*61*6~AK3*K1*6**8~AK4*3**3~AK5*R*5~";
    assert_eq!(notes_of_set_004010(set), expected);
}

#[test]
fn the_trailer_has_its_elements_checked() {
    let of = |trailer: &str| notes_of_set(&format!("ST*990*0001~B1*ABCD~{trailer}~"));
    let head = "AK3*SE*3**8~";
    assert_eq!(of("SE*3*0001*"), format!("{head}AK4*3**3~AK5*R*5~"));
    assert_eq!(
        of("SE"),
        format!("{head}AK4*1*96*1~AK4*2*329*1~AK5*R*3*4*5~")
    );
    assert_eq!(of("SE**0001"), format!("{head}AK4*1*96*1~AK5*R*4*5~"));
    assert_eq!(of("SE*3"), format!("{head}AK4*2*329*1~AK5*R*3*5~"));
    assert_eq!(of("SE*-*0001"), format!("{head}AK4*1*96*4*-~AK5*R*4*5~"));
    assert_eq!(of("SE*+3*0001"), format!("{head}AK4*1*96*6~AK5*R*4*5~"));
    assert_eq!(of("SE*3*001"), format!("{head}AK4*2*329*4*001~AK5*R*3*5~"));
    assert_eq!(
        of("SE*00000000003*0001"),
        format!("{head}AK4*1*96*5*00000000003~AK5*R*4*5~")
    );
    assert_eq!(of("SE*0000000003*0001"), "AK5*A~");
    assert_eq!(of("SE*4294967299*0001"), "AK5*R*4~");
}

#[test]
fn a_minus_that_is_the_component_separator_is_an_invalid_byte() {
    let interchange = after_gs("ST*990*0001~B1*ABCD~SE*-3*0001~GE*1*42~").replace("*>~", "*-~");
    let given = ask(interchange.as_bytes());
    let text = String::from_utf8(given.response().to_vec()).unwrap();
    let expected = "AK2*990*0001~AK3*SE*3**8~AK4*1*96*6~AK5*R*4*5~AK9*R*1*1*0~";
    assert!(text.contains(expected), "{text}");
}

#[test]
fn all_elements_of_b1_and_l11_are_held_to_the_table() {
    let [x, y, z] = ["X".repeat(31), "Y".repeat(31), "Z".repeat(81)];
    let set = format!("ST*990*0001~B1**{x}*2024*AA~L11*{y}*C*{z}~SE*4*0001~");
    let expected = format!(
        "AK3*B1*2**8~AK4*1*140*1~AK4*2*145*5*{x}~AK4*3*373*4*2024~AK4*4*558*5*AA~\
         AK3*L11*3**8~AK4*1*127*5*{y}~AK4*2*128*4*C~AK4*3*352*5*{z}~AK5*R*5~"
    );
    assert_eq!(notes_of_set(&set), expected);
}

#[test]
fn the_longest_elements_pass() {
    let long = "X".repeat(80);
    let set = format!(
        "ST*990*0001*{}~B1*ABCD*{}*20240229*D~L11*{}*CNX*{}~SE*4*0001~",
        &long[..35],
        &long[..30],
        &long[..30],
        long
    );
    assert_eq!(notes_of_set(&set), "AK5*A~");
}
