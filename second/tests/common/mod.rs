//! The surroundings of a group, taken from the worked exchange of document 01.

#![allow(dead_code)] // Each test file uses a part of this.

use second::{answer, answer_interchange, Answer};

pub const DATE: u32 = 20240315;
pub const TIME: u32 = 930;
pub const CONTROL: u32 = 77;
pub const BUFFER: usize = 65_536;

pub const ISA: &str = "ISA*00*          *00*          *ZZ*CARRIERA       *ZZ*BROKERB        \
                       *240315*0915*U*00601*000000042*0*T*>~";
pub const GS: &str = "GS*GF*CARRA*BROKB*20240315*0915*42*X*006010~";
pub const GS_004010: &str = "GS*GF*CARRA*BROKB*20240315*0915*42*X*004010~";
pub const IEA: &str = "IEA*1*000000042~";

/// A clean set of three segments.
pub const CLEAN: &str = "ST*990*0001~B1*ABCD~SE*3*0001~";

pub const RESPONSE_HEAD: &str =
    "ISA*00*          *00*          *ZZ*BROKERB        *ZZ*CARRIERA       \
                                 *240315*0930*U*00401*000000077*0*T*>~\
                                 GS*FA*BROKB*CARRA*20240315*0930*77*X*004010~ST*997*0001~";
pub const RESPONSE_TAIL: &str = "GE*1*77~IEA*1*000000077~";

pub fn ask(interchange: &[u8]) -> Answer {
    answer(interchange, BUFFER, DATE, TIME, CONTROL)
}

pub fn ask_for_ta1(interchange: &[u8]) -> Answer {
    answer_interchange(interchange, BUFFER, DATE, TIME, CONTROL)
}

/// The number given to an interchange in the numbers and the buffer above.
pub fn number(interchange: &str) -> u8 {
    ask(interchange.as_bytes()).number()
}

/// A whole interchange from its segments after ISA.
pub fn after_isa(segments: &str) -> String {
    format!("{ISA}{segments}")
}

/// A whole interchange from the group between GS and IEA.
pub fn after_gs(group: &str) -> String {
    format!("{ISA}{GS}{group}{IEA}")
}

/// What stands between ST and SE in the response to an interchange.
pub fn notes_of(interchange: &str) -> String {
    let given = ask(interchange.as_bytes());
    assert_eq!(given.number(), 0, "{interchange}");
    let text = String::from_utf8(given.response().to_vec()).unwrap();
    let inner = text.strip_prefix(RESPONSE_HEAD).expect("the head");
    let inner = inner.strip_suffix(RESPONSE_TAIL).expect("the tail");
    let segments = inner.matches('~').count() + 1;
    let trailer = format!("SE*{segments}*0001~");
    inner.strip_suffix(&trailer).expect("SE").to_string()
}

/// AK1 to AK9 for a group given as its sets, with the right GE.
pub fn notes_of_sets(gs: &str, sets: &str) -> String {
    let count = sets.matches("ST*").count();
    notes_of(&format!("{ISA}{gs}{sets}GE*{count}*42~{IEA}"))
}

/// AK3 to AK5 for one set in edition 006010, which has control number 0001.
pub fn notes_of_set(set: &str) -> String {
    strip_group(&notes_of_sets(GS, set))
}

/// AK3 to AK5 for one set in edition 004010, which has control number 0001.
pub fn notes_of_set_004010(set: &str) -> String {
    strip_group(&notes_of_sets(GS_004010, set))
}

fn strip_group(notes: &str) -> String {
    let inner = notes
        .strip_prefix("AK1*GF*42~AK2*990*0001~")
        .expect("one set");
    let (inner, _) = inner.rsplit_once("AK9*").expect("AK9");
    inner.to_string()
}

/// The set codes of AK5 and the AK9 of a group.
pub fn ak9_of(interchange: &str) -> String {
    let notes = notes_of(interchange);
    let start = notes.rfind("AK9*").expect("AK9");
    notes[start..].to_string()
}
