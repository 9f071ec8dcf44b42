//! The acknowledgment of one X12 interchange with up to 16 groups: of each group with a 997, of its envelope with a TA1,
//! or the number of a refusal. `include/acknowledgment.h` says all about it.

/// The type of both entries in C.
type Entry = unsafe extern "C" fn(
    interchange: *const u8,
    interchange_length: usize,
    response: *mut u8,
    response_length: usize,
    date: u32,
    time: u32,
    control: u32,
    length: *mut usize,
) -> u32;

extern "C" {
    fn x12_acknowledge(
        interchange: *const u8,
        interchange_length: usize,
        response: *mut u8,
        response_length: usize,
        date: u32,
        time: u32,
        control: u32,
        length: *mut usize,
    ) -> u32;

    fn x12_acknowledge_interchange(
        interchange: *const u8,
        interchange_length: usize,
        response: *mut u8,
        response_length: usize,
        date: u32,
        time: u32,
        control: u32,
        length: *mut usize,
    ) -> u32;
}

/// The caller's numbers: the date CCYYMMDD, a day of the Gregorian calendar,
/// and the time HHMM of the response, and its control number.
#[derive(Debug, Clone, Copy)]
pub struct Numbers {
    pub date: u32,
    pub time: u32,
    pub control: u32,
}

/// Why there is no response.
#[derive(Debug, Clone, Copy, PartialEq, Eq)]
pub enum Refusal {
    /// Refusal 1 to 13 of `acknowledge`, 1 to 5 or 15 of
    /// `acknowledge_interchange`.
    Numbered(u32),
    /// Refusal 14: the response needs a buffer of this length.
    BufferTooShort { needed: usize },
}

impl Refusal {
    pub fn number(self) -> u32 {
        match self {
            Refusal::Numbered(number) => number,
            Refusal::BufferTooShort { .. } => 14,
        }
    }
}

/// Answers an interchange with a 997 for each of its 1 to 16 groups, in their
/// order and in one response. A group that is refused refuses the interchange.
/// The response is the part of `buffer` that is given back; a refusal leaves
/// `buffer` as it was. Where a value is wrong, its AK4 shows at most the first
/// 99 bytes that were received.
pub fn acknowledge<'a>(
    interchange: &[u8],
    buffer: &'a mut [u8],
    numbers: Numbers,
) -> Result<&'a [u8], Refusal> {
    let answer = number_and_length(interchange, buffer, numbers);
    response(answer, buffer)
}

/// Answers an interchange whose ISA14 is `1` with a TA1: `A` where its envelope
/// is good, `R` and a note code where it is not. The response is the part of
/// `buffer` that is given back, 154 bytes; a refusal leaves `buffer` as it was.
pub fn acknowledge_interchange<'a>(
    interchange: &[u8],
    buffer: &'a mut [u8],
    numbers: Numbers,
) -> Result<&'a [u8], Refusal> {
    let answer = interchange_number_and_length(interchange, buffer, numbers);
    response(answer, buffer)
}

/// The answer of `acknowledge` as it comes back from the library.
pub fn number_and_length(interchange: &[u8], buffer: &mut [u8], numbers: Numbers) -> (u32, usize) {
    call(x12_acknowledge, interchange, buffer, numbers)
}

/// The answer of `acknowledge_interchange` as it comes back from the library.
pub fn interchange_number_and_length(
    interchange: &[u8],
    buffer: &mut [u8],
    numbers: Numbers,
) -> (u32, usize) {
    call(x12_acknowledge_interchange, interchange, buffer, numbers)
}

fn response((number, length): (u32, usize), buffer: &[u8]) -> Result<&[u8], Refusal> {
    match number {
        0 => Ok(&buffer[..length]),
        14 => Err(Refusal::BufferTooShort { needed: length }),
        _ => Err(Refusal::Numbered(number)),
    }
}

fn call(entry: Entry, interchange: &[u8], buffer: &mut [u8], numbers: Numbers) -> (u32, usize) {
    let mut length = usize::MAX;
    // SAFETY: each pointer goes with the length of its slice, is not null even
    // for an empty one, and what is borrowed mutably overlaps with nothing.
    let number = unsafe {
        entry(
            interchange.as_ptr(),
            interchange.len(),
            buffer.as_mut_ptr(),
            buffer.len(),
            numbers.date,
            numbers.time,
            numbers.control,
            &mut length,
        )
    };
    (number, length)
}
