//! Damage to the group that is answered with a group code or survives.

use super::content;
use super::draft::{set_element, Draft};
use super::prng::Prng;

const VERSIONS: [&str; 9] = [
    "005010",
    "004011",
    "00401",
    "00601",
    "6",
    "006010ABCDEF",
    "004010XX",
    "006O10",
    " 006010",
];

pub fn damage_group(prng: &mut Prng, draft: &mut Draft) {
    for _ in 0..*prng.pick(&[1, 1, 2]) {
        damage_once(prng, draft);
    }
}

fn damage_once(prng: &mut Prng, draft: &mut Draft) {
    let gs = 0;
    let ge = draft.indices_of("GE").first().copied();
    match (prng.below(7), ge) {
        (0, _) => {
            let identifier = unsupported_identifier(prng);
            set_element(&mut draft.segments[gs], 1, identifier);
        }
        (1, _) => set_element(&mut draft.segments[gs], 8, *prng.pick(&VERSIONS)),
        (2, Some(ge)) => {
            draft.segments.remove(ge);
        }
        (3, Some(ge)) => {
            let count = near_count(prng, draft.indices_of("ST").len());
            set_element(&mut draft.segments[ge], 1, count);
        }
        (4, Some(ge)) => damage_control_number(prng, draft, ge),
        (5, Some(ge)) => draft.segments[ge].truncate(prng.between(1, 2)),
        (6, Some(ge)) => {
            let byte = content::invalid_byte(prng, &draft.delimiters);
            draft.segments[ge].push(vec![byte]);
        }
        _ => {}
    }
}

fn unsupported_identifier(prng: &mut Prng) -> Vec<u8> {
    loop {
        let identifier = vec![
            content::uppercase_or_digit(prng),
            content::uppercase_or_digit(prng),
        ];
        if identifier != b"FA" {
            return identifier;
        }
    }
}

/// A GE01 that looks like the right count, or has its value.
fn near_count(prng: &mut Prng, right: usize) -> String {
    match prng.below(10) {
        0 => String::new(),
        1 => "0".to_string(),
        2 => "000000".to_string(),
        3 => "999999".to_string(),
        4 => format!("{right:06}"),
        5 => format!("{right:07}"),
        6 => format!("-{right}"),
        7 => format!("{right} "),
        8 => (right + 1).to_string(),
        _ => (right + 1_000_000).to_string(),
    }
}

fn damage_control_number(prng: &mut Prng, draft: &mut Draft, ge: usize) {
    let mut control = draft.segments[ge].get(2).cloned().unwrap_or_default();
    match prng.below(4) {
        0 => control.insert(0, b'0'),
        1 => control.clear(),
        2 => control.push(content::digit(prng)),
        _ => control.push(content::invalid_byte(prng, &draft.delimiters)),
    }
    set_element(&mut draft.segments[ge], 2, control);
}
