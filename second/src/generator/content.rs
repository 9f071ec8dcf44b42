//! Delimiters, and bytes for elements and fields.

use super::prng::Prng;
use crate::delimiters::Delimiters;

const USUAL: Delimiters = Delimiters {
    element: b'*',
    component: b'>',
    terminator: b'~',
    repetition: None,
};

/// Legal delimiters of every kind, the usual ones in half of the cases. In one
/// case of five ISA11 is among them.
pub fn delimiters(prng: &mut Prng) -> Delimiters {
    let three = three_delimiters(prng);
    if prng.percent(20) {
        with_repetition(prng, three)
    } else {
        three
    }
}

fn three_delimiters(prng: &mut Prng) -> Delimiters {
    match prng.below(10) {
        0 => Delimiters {
            component: b'-',
            ..USUAL
        },
        1 => Delimiters {
            terminator: b'\n',
            ..USUAL
        },
        2 => distinct(prng, |prng| prng.byte_between(0, 31)),
        3 => distinct(prng, |prng| prng.byte_between(127, 255)),
        4 => distinct(prng, any_legal_delimiter),
        _ => USUAL,
    }
}

fn distinct(prng: &mut Prng, draw: impl Fn(&mut Prng) -> u8) -> Delimiters {
    loop {
        let drawn = Delimiters {
            element: draw(prng),
            component: draw(prng),
            terminator: draw(prng),
            repetition: None,
        };
        if let Ok(delimiters) = drawn.check() {
            return delimiters;
        }
    }
}

fn with_repetition(prng: &mut Prng, three: Delimiters) -> Delimiters {
    loop {
        let separator = if prng.percent(60) {
            b'^'
        } else {
            any_legal_delimiter(prng)
        };
        let four = Delimiters {
            repetition: Some(separator),
            ..three
        };
        if let Ok(delimiters) = four.check() {
            return delimiters;
        }
    }
}

fn any_legal_delimiter(prng: &mut Prng) -> u8 {
    loop {
        let byte = prng.byte_between(0, 255);
        if !byte.is_ascii_alphanumeric() && byte != b' ' {
            return byte;
        }
    }
}

pub fn digit(prng: &mut Prng) -> u8 {
    prng.byte_between(b'0', b'9')
}

pub fn digits(prng: &mut Prng, length: usize) -> Vec<u8> {
    (0..length).map(|_| digit(prng)).collect()
}

pub fn uppercase_or_digit(prng: &mut Prng) -> u8 {
    if prng.percent(30) {
        digit(prng)
    } else {
        prng.byte_between(b'A', b'Z')
    }
}

/// Mostly uppercase letters and digits, now and then any valid byte.
pub fn valid_byte(prng: &mut Prng, delimiters: &Delimiters) -> u8 {
    if prng.percent(85) {
        return uppercase_or_digit(prng);
    }
    loop {
        let byte = prng.byte_between(32, 126);
        if delimiters.is_valid(byte) {
            return byte;
        }
    }
}

pub fn text(prng: &mut Prng, delimiters: &Delimiters, length: usize) -> Vec<u8> {
    (0..length).map(|_| valid_byte(prng, delimiters)).collect()
}

/// A byte that is not valid, yet neither cuts an element nor a segment.
pub fn invalid_byte(prng: &mut Prng, delimiters: &Delimiters) -> u8 {
    loop {
        let byte = match prng.below(5) {
            0 => delimiters.component,
            1 => delimiters.repetition.unwrap_or(delimiters.component),
            2 => prng.byte_between(0, 31),
            3 => 127,
            _ => prng.byte_between(128, 255),
        };
        if byte != delimiters.element && byte != delimiters.terminator {
            return byte;
        }
    }
}

/// A time of hours and minutes.
pub fn time(prng: &mut Prng) -> u32 {
    let hours = *prng.pick(&[0, 1, 9, 10, 19, 23]);
    let minutes = *prng.pick(&[0, 1, 9, 30, 59]);
    hours * 100 + minutes
}

/// A time by rule TM of 4, 6, 7 or 8 digits.
pub fn long_time(prng: &mut Prng) -> Vec<u8> {
    let mut written = format!("{:04}", time(prng)).into_bytes();
    let more = *prng.pick(&[0, 0, 2, 3, 4]);
    if more > 0 {
        written.extend(prng.pick(&[b"00", b"07", b"59"]).iter());
        written.extend(digits(prng, more - 2));
    }
    written
}
