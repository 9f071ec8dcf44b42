//! What the wrapper makes of the library's answers with a TA1.

mod common;

use acknowledgment::{acknowledge_interchange, interchange_number_and_length, Numbers, Refusal};
use common::{answers_of_cases, file, split, LENT, NUMBERS};

/// The length of every response.
const LENGTH: usize = 154;

const ISA14: usize = 100;

/// The interchange of the worked exchange, which asks for a TA1, and its response.
fn worked_exchange() -> (Vec<u8>, Vec<u8>) {
    let exchange = file("cases/ta1/worked-exchange.in");
    let (_, interchange) = split(&exchange).unwrap();
    (interchange.to_vec(), file("cases/ta1/worked-exchange.out"))
}

#[test]
fn the_worked_exchange_is_answered_with_its_bytes() {
    let (interchange, expected) = worked_exchange();
    let mut buffer = [LENT; 65_536];
    let response = acknowledge_interchange(&interchange, &mut buffer, NUMBERS);
    assert_eq!(response, Ok(&expected[..]));
    assert!(buffer[LENGTH..].iter().all(|&byte| byte == LENT));
}

#[test]
fn a_buffer_of_just_the_length_is_enough() {
    let (interchange, expected) = worked_exchange();
    let mut buffer = [LENT; LENGTH];
    let response = acknowledge_interchange(&interchange, &mut buffer, NUMBERS);
    assert_eq!(response, Ok(&expected[..]));
}

#[test]
fn a_buffer_too_short_is_told_the_length_and_stays_as_lent() {
    let (interchange, _) = worked_exchange();
    for length in [0, 1, 106, LENGTH - 1] {
        let mut buffer = vec![LENT; length];
        let refusal = acknowledge_interchange(&interchange, &mut buffer, NUMBERS).unwrap_err();
        assert_eq!(refusal, Refusal::BufferTooShort { needed: LENGTH });
        assert_eq!(refusal.number(), 14);
        assert_eq!(buffer, vec![LENT; length]);
    }
}

#[test]
fn a_refusal_has_its_number_and_leaves_the_buffer_as_lent() {
    let (interchange, _) = worked_exchange();
    let mut unwanted = interchange.clone();
    unwanted[ISA14] = b'0';
    let hour_24 = Numbers {
        time: 2400,
        ..NUMBERS
    };
    for (numbers, interchange, number) in [
        (hour_24, &interchange[..], 1),
        (NUMBERS, &[], 2),
        (NUMBERS, &interchange[..105], 2),
        (NUMBERS, &[b'~'; 65_537], 2),
        (NUMBERS, &unwanted, 15),
        (NUMBERS, &unwanted[..106], 15),
    ] {
        let mut buffer = [LENT; 1_000];
        let answer = acknowledge_interchange(interchange, &mut buffer, numbers);
        assert_eq!(answer, Err(Refusal::Numbered(number)));
        assert_eq!(answer.unwrap_err().number(), number);
        assert_eq!(buffer, [LENT; 1_000]);
    }
}

#[test]
fn a_fault_of_the_envelope_is_no_refusal() {
    let (interchange, expected) = worked_exchange();
    for (received, verdict) in [
        (&interchange[..interchange.len() - 1], b"R*023"),
        (&interchange[..106], b"R*022"),
    ] {
        let mut told = expected.clone();
        told[132..137].copy_from_slice(verdict);
        let mut buffer = [LENT; LENGTH];
        let response = acknowledge_interchange(received, &mut buffer, NUMBERS);
        assert_eq!(response, Ok(&told[..]));
    }
}

#[test]
fn nothing_may_be_lent() {
    assert_eq!(interchange_number_and_length(&[], &mut [], NUMBERS), (2, 0));
}

#[test]
fn every_case_gets_its_answer() {
    let seen = answers_of_cases("cases/ta1", acknowledge_interchange);
    assert_eq!(seen, [0, 1, 2, 3, 4, 5, 15].into());
}
