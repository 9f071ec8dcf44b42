//! Interchanges to be timed: what a partner sends all day, and the worst that fits.

use acknowledgment::{interchange_number_and_length, number_and_length, Numbers};

/// An entry, of the library and of the second program.
#[derive(Clone, Copy)]
pub struct Entry {
    pub library: fn(&[u8], &mut [u8], Numbers) -> (u32, usize),
    pub second: second::Entry,
}

const GROUP: Entry = Entry {
    library: number_and_length,
    second: second::answer,
};

const ENVELOPE: Entry = Entry {
    library: interchange_number_and_length,
    second: second::answer_interchange,
};

pub struct Input {
    pub name: String,
    pub entry: Entry,
    pub interchange: Vec<u8>,
    /// The length of the buffer that is lent, and the caller's control number.
    pub room: usize,
    pub control: u32,
    /// The number of the answer.
    pub number: u8,
}

/// Room for the longest response here.
pub const ROOM: usize = 4 << 20;

fn input(name: impl Into<String>, interchange: impl Into<Vec<u8>>) -> Input {
    Input {
        name: name.into(),
        entry: GROUP,
        interchange: interchange.into(),
        room: ROOM,
        control: 77,
        number: 0,
    }
}

const ISA: &str = "ISA*00*          *00*          *ZZ*CARRIERA       *ZZ*BROKERB        *240315*0915*U*00601*000000042*0*T*>~";

/// GS, so many sets and GE.
fn enclosed(sets: usize, body: &str) -> String {
    format!("GS*GF*CARRA*BROKB*20240315*0915*42*X*006010~{body}GE*{sets}*42~")
}

/// One group of so many sets.
fn interchange(sets: usize, body: &str) -> String {
    format!("{ISA}{}IEA*1*000000042~", enclosed(sets, body))
}

/// So many sets, each made from its control number.
fn body(sets: usize, set: impl Fn(usize) -> String) -> String {
    (1..=sets).map(set).collect()
}

fn group(sets: usize, set: impl Fn(usize) -> String) -> String {
    interchange(sets, &body(sets, set))
}

/// So many groups of so many sets each. The control numbers are the same in each group.
fn groups(groups: usize, sets: usize, set: impl Fn(usize) -> String) -> String {
    let group = enclosed(sets, &body(sets, set));
    format!("{ISA}{}IEA*{groups}*000000042~", group.repeat(groups))
}

fn clean_set(number: usize) -> String {
    format!("ST*990*{number:04}~B1*ABCD*L{number:04}*20240315*A~L11*4711*CN~SE*4*{number:04}~")
}

/// Clean sets in an interchange of so many bytes: what is left over goes to the first sets' B102, a byte each.
fn clean_interchange_of(bytes: usize) -> String {
    let room = bytes - interchange(10, "").len();
    let (sets, rest) = (room / clean_set(1).len(), room % clean_set(1).len());
    let interchange = group(sets, |number| match clean_set(number) {
        set if number <= rest => set.replacen("*2024", "X*2024", 1),
        set => set,
    });
    assert_eq!(interchange.len(), bytes);
    interchange
}

fn faulty_set(number: usize) -> String {
    format!("ST*990*{number:04}~B1*ABCDE*L101*20241315*Q~L11**CN~SE*3*{number:04}~")
}

/// With one value that is too long, and cut where it is shown.
fn long_value_set(number: usize) -> String {
    let value = "L".repeat(100);
    format!("ST*990*{number:04}~B1*ABCD*{value}*20240315*A~SE*3*{number:04}~")
}

/// Clean up to its trailer, which counts a segment too many.
fn odd_set(number: usize) -> String {
    format!("ST*990*{number:04}~B1*ABCD*L{number:04}*20240315*A~L11*4711*CN~SE*5*{number:04}~")
}

fn header(number: usize) -> String {
    format!("ST*990*{number:04}~")
}

/// The nth word of five letters.
fn word(n: u32) -> String {
    let letters = [n, n / 26, n / 676, n / 17_576, n / 456_976];
    letters
        .map(|n| char::from(b'A' + (n % 26) as u8))
        .iter()
        .collect()
}

/// The bucket that the library looks for a control number in.
fn bucket(number: &str) -> u32 {
    number
        .bytes()
        .fold(0, |n, byte| (n * 10 + u32::from(byte)) % 1024)
}

/// So many headers with different control numbers, all with this beginning and of one bucket.
fn headers_of_one_bucket(sets: usize, beginning: &str) -> String {
    let numbers = (0..).map(|n| format!("{beginning}{}", word(n)));
    let group: String = numbers
        .filter(|number| bucket(number) == 0)
        .take(sets)
        .map(|number| format!("ST*990*{number}~"))
        .collect();
    interchange(sets, &group)
}

/// With one value that repeats, where ISA11 is the repetition separator.
fn repeated_set(number: usize) -> String {
    format!("ST*990*{number:04}~B1*ABCD*L{number:04}^L101*20240315*A~L11*4711*CN~SE*4*{number:04}~")
}

/// The same interchange with `^` in ISA11, as the repetition separator.
fn with_separator(interchange: String) -> String {
    interchange.replacen("*U*", "*^*", 1)
}

/// One set with these bytes between header and trailer.
fn one_set(body: &str) -> String {
    interchange(1, &format!("ST*990*0001~{body}SE*3*0001~"))
}

/// So many sets of a kind: `clean`, `faulty`, or `odd` in their last segment.
pub fn sets_of(kind: &str, sets: usize) -> Input {
    let set = match kind {
        "clean" => clean_set,
        "faulty" => faulty_set,
        "odd" => odd_set,
        _ => panic!("no kind of sets: {kind}"),
    };
    input(kind, group(sets, set))
}

pub fn answered() -> Vec<Input> {
    let mut inputs: Vec<Input> = [10, 100, 450, 900]
        .map(|sets| input(format!("{sets} clean sets"), group(sets, clean_set)))
        .into();
    inputs.extend([4096, 4097].map(|bytes| {
        input(
            format!("clean sets in an interchange of {bytes} bytes"),
            clean_interchange_of(bytes),
        )
    }));
    inputs.extend([
        input("880 clean sets", group(880, clean_set)),
        input("55 clean sets", group(55, clean_set)),
        input("16 groups of 55 clean sets each", groups(16, 55, clean_set)),
        input("16 clean sets", group(16, clean_set)),
        input("one clean set", group(1, clean_set)),
        input("16 groups of one clean set each", groups(16, 1, clean_set)),
        input("900 faulty sets", group(900, faulty_set)),
        input(
            "400 sets, each with a value of 100 bytes that is too long",
            group(400, long_value_set),
        ),
        input(
            "900 sets, each odd in its last segment",
            group(900, odd_set),
        ),
        input("4800 headers, different numbers", group(4800, header)),
        input("4800 headers, the same number", group(4800, |_| header(1))),
        input(
            "4800 headers, numbers of one bucket",
            headers_of_one_bucket(4800, ""),
        ),
        input(
            "3600 headers, numbers of one bucket and beginning",
            headers_of_one_bucket(3600, "AAAA"),
        ),
        input("60000 empty segments", one_set(&"~".repeat(60_000))),
        input("a set of nothing but B1", one_set(&"B1~".repeat(21_778))),
        input("a set of nothing but L11", one_set(&"L11~".repeat(16_300))),
        input(
            "a last element of 60000 bytes",
            one_set(&format!("B1*ABCD~L11*{}~", "A".repeat(60_000))),
        ),
        input(
            "a segment of 60000 separators",
            one_set(&format!("B1{}~", "*".repeat(60_000))),
        ),
        input(
            "10 clean sets, with a repetition separator",
            with_separator(group(10, clean_set)),
        ),
        input(
            "900 clean sets, with a repetition separator",
            with_separator(group(900, clean_set)),
        ),
        input(
            "900 sets, each with a repeated element",
            with_separator(group(900, repeated_set)),
        ),
        input(
            "a last element of 60000 bytes that repeats at its end",
            with_separator(one_set(&format!("B1*ABCD~L11*{}^~", "A".repeat(59_999)))),
        ),
    ]);
    inputs
}

/// One input for each refusal, of the length of 900 clean sets where its cause
/// leaves it a length.
pub fn refused() -> Vec<Input> {
    let clean = group(900, clean_set);
    let first = |from: &str, to: &str| clean.replacen(from, to, 1);
    let last = |from: &str, to: &str| {
        let (before, after) = clean.rsplit_once(from).expect("each is there");
        format!("{before}{to}{after}")
    };
    let mut inputs: Vec<Input> = [
        (1, clean.clone()),
        (2, clean.repeat(2)),
        (3, first("ISA*", "ISB*")),
        (4, first("T*>~", "T*A~")),
        (5, first("*T*>~", "*X*>~")),
        (6, format!("{clean} ")),
        (7, last("GE*900", "GS~GE*900")),
        (8, last("IEA*1", "IEA*2")),
        (9, first("*0915*42*X", "*2400*42*X")),
        (10, first("GS*GF", "GS*FA")),
        (11, last("GE*900", "B1~GE*900")),
        (12, interchange(0, "")),
        (13, last("ST*990*0900", "ST*990*900")),
        (14, clean.clone()),
    ]
    .map(|(number, interchange)| Input {
        number,
        ..input(format!("refusal {number}"), interchange)
    })
    .into();
    inputs[0].control = 0;
    inputs[13].room = 100;
    inputs
}

/// The same for a TA1, which ISA14 asks for.
fn asking(name: impl Into<String>, interchange: String) -> Input {
    Input {
        entry: ENVELOPE,
        ..input(name, interchange.replacen("*0*T*", "*1*T*", 1))
    }
}

pub fn envelopes() -> Vec<Input> {
    let clean = group(900, clean_set);
    vec![
        asking("TA1, 10 clean sets", group(10, clean_set)),
        asking("TA1, 900 clean sets", clean.clone()),
        asking("TA1, 60000 empty segments", one_set(&"~".repeat(60_000))),
        asking("TA1, no terminator at the end", format!("{clean} ")),
        Input {
            entry: ENVELOPE,
            number: 15,
            ..input("TA1, refusal 15", clean)
        },
    ]
}
