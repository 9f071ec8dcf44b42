//! What the wrapper makes of the library's answers with a 997.

mod common;

use acknowledgment::{acknowledge, number_and_length, Numbers, Refusal};
use common::{answers_of_cases, file, split, LENT, NUMBERS};

/// The interchange of the sample, and its response.
fn sample() -> (Vec<u8>, Vec<u8>) {
    let exchange = file("samples/exchange.txt");
    let (_, interchange) = split(&exchange).unwrap();
    (interchange.to_vec(), file("samples/exchange.out"))
}

#[test]
fn the_sample_is_answered_with_its_bytes() {
    let (interchange, expected) = sample();
    let mut buffer = [LENT; 65_536];
    let response = acknowledge(&interchange, &mut buffer, NUMBERS);
    assert_eq!(response, Ok(&expected[..]));
}

#[test]
fn a_buffer_of_just_the_length_is_enough() {
    let (interchange, expected) = sample();
    let mut buffer = vec![LENT; expected.len()];
    let response = acknowledge(&interchange, &mut buffer, NUMBERS);
    assert_eq!(response, Ok(&expected[..]));
}

#[test]
fn what_follows_the_response_is_as_lent() {
    let (interchange, expected) = sample();
    let mut buffer = [LENT; 1_000];
    let length = acknowledge(&interchange, &mut buffer, NUMBERS)
        .unwrap()
        .len();
    assert_eq!(length, expected.len());
    assert!(buffer[length..].iter().all(|&byte| byte == LENT));
}

#[test]
fn a_buffer_too_short_is_told_the_length_and_stays_as_lent() {
    let (interchange, expected) = sample();
    for length in [0, 1, 106, expected.len() - 1] {
        let mut buffer = vec![LENT; length];
        let refusal = acknowledge(&interchange, &mut buffer, NUMBERS).unwrap_err();
        let needed = expected.len();
        assert_eq!(refusal, Refusal::BufferTooShort { needed });
        assert_eq!(refusal.number(), 14);
        assert_eq!(buffer, vec![LENT; length]);
    }
}

#[test]
fn a_refusal_has_its_number_and_leaves_the_buffer_as_lent() {
    let (interchange, _) = sample();
    let hour_24 = Numbers {
        time: 2400,
        ..NUMBERS
    };
    for (numbers, interchange, number) in [
        (hour_24, &interchange[..], 1),
        (NUMBERS, &[], 2),
        (NUMBERS, &interchange[..105], 2),
        (NUMBERS, &[b'~'; 65_537], 2),
        (NUMBERS, &interchange[..interchange.len() - 1], 6),
        (NUMBERS, &interchange[..106], 7),
    ] {
        let mut buffer = [LENT; 1_000];
        let answer = acknowledge(interchange, &mut buffer, numbers);
        assert_eq!(answer, Err(Refusal::Numbered(number)));
        assert_eq!(answer.unwrap_err().number(), number);
        assert_eq!(buffer, [LENT; 1_000]);
    }
}

#[test]
fn nothing_may_be_lent() {
    assert_eq!(number_and_length(&[], &mut [], NUMBERS), (2, 0));
}

#[test]
fn every_case_gets_its_answer() {
    let seen = answers_of_cases("cases", acknowledge);
    assert_eq!(seen, (0..=14).collect());
}
