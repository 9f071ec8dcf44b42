//! Control numbers of sets that are hard to tell apart, or to look up.

use super::content;
use super::prng::Prng;
use crate::delimiters::Delimiters;

const LONGEST: usize = 9;

/// Two numbers that begin alike, and differ after that if at all.
pub fn nearly_equal(prng: &mut Prng, delimiters: &Delimiters) -> [Vec<u8>; 2] {
    let alike = prng.between(4, LONGEST - 1);
    let beginning = content::text(prng, delimiters, alike);
    [(); 2].map(|()| {
        let more = prng.between(0, LONGEST - alike);
        let end = content::text(prng, delimiters, more);
        [&beginning[..], &end].concat()
    })
}

/// Numbers of one bucket, of which each begins with two bits more of the last
/// than the one before it. In a tree that parts by bits the way to the last
/// one leads through all.
pub fn way_through_a_tree(prng: &mut Prng, delimiters: &Delimiters) -> Vec<Vec<u8>> {
    let last = content::text(prng, delimiters, LONGEST);
    let high_first = prng.percent(50);
    let mut way: Vec<Vec<u8>> = (0..LONGEST * 8)
        .step_by(2)
        .filter_map(|bits| beginning_like(prng, delimiters, &last, bits, high_first))
        .collect();
    way.push(last);
    way
}

/// Another number of the same bucket with the same first bits, if one is found.
fn beginning_like(
    prng: &mut Prng,
    delimiters: &Delimiters,
    like: &[u8],
    bits: usize,
    high_first: bool,
) -> Option<Vec<u8>> {
    let (whole, rest) = (bits / 8, bits % 8);
    let mask = if high_first {
        !(0xFF >> rest)
    } else {
        !(0xFF << rest)
    };
    let mut drawn = || {
        let mut number = like[..whole].to_vec();
        number.extend((whole..LONGEST).map(|_| prng.byte_between(32, 126)));
        number[whole] = number[whole] & !mask | like[whole] & mask;
        number
    };
    let fits = |number: &Vec<u8>| {
        let valid = number.iter().all(|&byte| delimiters.is_valid(byte));
        valid && number != like && bucket(number) == bucket(like)
    };
    (0..4_000).map(|_| drawn()).find(fits)
}

/// So many different numbers of one bucket, with this beginning and five letters after it.
pub fn of_one_bucket(beginning: &str, count: usize) -> Vec<Vec<u8>> {
    let ending_in_bucket_0 = |number: usize| {
        let mut number = [beginning.as_bytes(), &four_letters(number)].concat();
        let last = (b'A'..=b'Z').find(|&last| added(bucket(&number), last) == 0)?;
        number.push(last);
        Some(number)
    };
    (0..).filter_map(ending_in_bucket_0).take(count).collect()
}

fn four_letters(number: usize) -> [u8; 4] {
    [1, 26, 676, 17_576].map(|power| b'A' + (number / power % 26) as u8)
}

/// The one of 1,024 buckets in which the proved library looks a number up.
/// Cases are made for it; no answer depends on it.
fn bucket(number: &[u8]) -> usize {
    number.iter().fold(0, |sum, &byte| added(sum, byte))
}

fn added(sum: usize, byte: u8) -> usize {
    (sum * 10 + usize::from(byte)) % 1024
}
