//! Damage to raw bytes, blind to what they mean.

use super::prng::Prng;
use crate::isa::ISA_LENGTH;

pub fn damage_bytes(prng: &mut Prng, bytes: &mut Vec<u8>) {
    for _ in 0..*prng.pick(&[1, 1, 1, 2, 3, 8]) {
        damage_once(prng, bytes);
    }
}

fn damage_once(prng: &mut Prng, bytes: &mut Vec<u8>) {
    if bytes.is_empty() {
        return;
    }
    let at = place(prng, bytes.len());
    let other = place(prng, bytes.len());
    match prng.below(7) {
        0 => bytes[at] ^= 1 << prng.below(8),
        1 => bytes[at] = prng.byte_between(0, 255),
        2 => bytes[at] = bytes[other],
        3 => bytes.insert(at, bytes[other]),
        4 => {
            bytes.remove(at);
        }
        5 => {
            let end = bytes.len().min(at + prng.between(1, 40));
            let again = bytes[at..end].to_vec();
            bytes.splice(at..at, again);
        }
        _ => bytes.swap(at, other),
    }
}

/// Mostly behind ISA, where damage has more than one outcome.
fn place(prng: &mut Prng, length: usize) -> usize {
    if length > ISA_LENGTH && prng.percent(85) {
        prng.between(ISA_LENGTH, length - 1)
    } else {
        prng.below(length)
    }
}
