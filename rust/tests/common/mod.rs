//! What the tests of both entries need.

use acknowledgment::{Numbers, Refusal};
use std::collections::BTreeSet;
use std::fs;
use std::path::Path;

/// An entry of the wrapper.
pub type Entry = for<'a> fn(&[u8], &'a mut [u8], Numbers) -> Result<&'a [u8], Refusal>;

/// What every byte of a buffer holds that was not written.
pub const LENT: u8 = 0xA5;

pub const NUMBERS: Numbers = Numbers {
    date: 20240315,
    time: 930,
    control: 77,
};

pub fn file(name: &str) -> Vec<u8> {
    let root = Path::new(env!("CARGO_MANIFEST_DIR")).join("..");
    fs::read(root.join(name)).unwrap()
}

/// The numbers of a first line that has three, and what follows it.
pub fn split(exchange: &[u8]) -> Option<(Numbers, &[u8])> {
    let line_feed = exchange.iter().position(|&byte| byte == b'\n')?;
    let line = std::str::from_utf8(&exchange[..line_feed]).ok()?;
    let fields: Option<Vec<u32>> = line.split(' ').map(|field| field.parse().ok()).collect();
    let [date, time, control] = fields?[..] else {
        return None;
    };
    let numbers = Numbers {
        date,
        time,
        control,
    };
    Some((numbers, &exchange[line_feed + 1..]))
}

/// Gives every case of a folder that is a call to its entry, holds the answer
/// against the case's file, and tells which numbers were given.
pub fn answers_of_cases(folder: &str, entry: Entry) -> BTreeSet<u32> {
    let folder = Path::new(env!("CARGO_MANIFEST_DIR"))
        .join("..")
        .join(folder);
    let mut seen = BTreeSet::new();
    for found in fs::read_dir(folder).unwrap() {
        let path = found.unwrap().path();
        let name = path.file_name().unwrap().to_str().unwrap();
        if !name.ends_with(".in") || name.starts_with("first-line-") {
            continue;
        }
        let exchange = fs::read(&path).unwrap();
        let (numbers, interchange) = split(&exchange).unwrap();
        let mut buffer = [LENT; 65_536];
        let printed = match entry(interchange, &mut buffer, numbers) {
            Ok(response) => {
                seen.insert(0);
                response.to_vec()
            }
            Err(refusal) => {
                seen.insert(refusal.number());
                format!("refused {}\n", refusal.number()).into_bytes()
            }
        };
        assert!(
            printed == fs::read(path.with_extension("out")).unwrap(),
            "{name}"
        );
    }
    seen
}
