//! The library against the second program, its two entries against each other,
//! and its answers to several groups against those to each alone, on generated
//! cases.

use crate::agreement::agree;
use crate::alone::each_as_alone;
use crate::outcome::{Outcome, Outcomes};
use crate::show;
use crate::shrink::shrunk;
use crate::tally::Tally;
use second::generator::Case;
use std::io;

/// Compares number, length and the whole buffer of both entries on the cases
/// of a seed, and asks that the library's entries agree and that each group
/// gets the 997 that it gets alone.
pub fn compare(
    library: impl Fn(&Case, u8) -> Outcomes,
    seed: u64,
    count: u64,
    tally: &mut Tally,
) -> io::Result<()> {
    for index in 0..count {
        let case = Case::make(seed, index);
        // Another byte for each case, so that none can hide what was not written.
        let lent = index as u8;
        let acknowledging = |case: &Case| library(case, lent).acknowledgment;
        let differs = |case: &Case| {
            let outcomes = library(case, lent);
            outcomes != Outcomes::of_second(case, lent)
                || !agree(case, &outcomes)
                || !each_as_alone(acknowledging, case, &outcomes.acknowledgment)
        };
        if differs(&case) {
            let name = format!("case-{seed}-{index}");
            tally.fail(&name, || {
                let small = shrunk(&case, differs);
                let second = Outcomes::of_second(&small, lent);
                let library = library(&small, lent);
                let as_alone = each_as_alone(acknowledging, &small, &library.acknowledgment);
                difference(&small, &library, &second, as_alone)
            })?;
        } else {
            tally.pass();
        }
    }
    Ok(())
}

fn difference(case: &Case, library: &Outcomes, second: &Outcomes, as_alone: bool) -> String {
    let agreement = if agree(case, library) {
        "The library's entries agree."
    } else {
        "The library's entries do not agree."
    };
    let alone = if as_alone {
        "The library gives each group the 997 that it gets alone."
    } else {
        "The library gives a group another 997 than alone."
    };
    format!(
        "{}\nThe 997.\n{}\nThe TA1.\n{}\n{agreement}\n{alone}\n",
        show::case(case),
        answers(&library.acknowledgment, &second.acknowledgment),
        answers(&library.interchange, &second.interchange),
    )
}

fn answers(library: &Outcome, second: &Outcome) -> String {
    let first = match library.first_difference(second) {
        Some(at) => format!("The buffers differ from byte {at} on."),
        None => "The buffers are the same.".to_string(),
    };
    format!(
        "The second program: {}\nThe library: {}\n{first}\n",
        show::outcome(second),
        show::outcome(library),
    )
}

#[cfg(test)]
mod tests {
    use super::*;
    use std::fs;
    use std::path::PathBuf;

    /// What the comparison says of a library that is the second program but
    /// for what `spoil` does, and where it wrote the differences.
    fn told(name: &str, spoil: impl Fn(&Case, &mut Outcomes)) -> (String, PathBuf) {
        let folder = std::env::temp_dir().join(format!("compare-{name}-{}", std::process::id()));
        let mut tally = Tally::new(&folder);
        let library = |case: &Case, lent: u8| {
            let mut outcomes = Outcomes::of_second(case, lent);
            spoil(case, &mut outcomes);
            outcomes
        };
        compare(library, 990, 300, &mut tally).unwrap();
        (tally.to_string(), folder)
    }

    /// What `spoil` does to the outcome of one entry, with the other as it
    /// should be, is caught.
    fn is_caught(name: &str, spoil: impl Fn(&mut Outcome)) {
        let of_997 = |_: &Case, outcomes: &mut Outcomes| spoil(&mut outcomes.acknowledgment);
        let of_ta1 = |_: &Case, outcomes: &mut Outcomes| spoil(&mut outcomes.interchange);
        for (told, folder) in [
            told(&format!("{name}-997"), of_997),
            told(&format!("{name}-ta1"), of_ta1),
        ] {
            assert!(!told.ends_with(", 0 failed"), "{told}");
            assert!(fs::read_dir(&folder).unwrap().count() > 0);
            fs::remove_dir_all(folder).unwrap();
        }
    }

    #[test]
    fn the_second_program_is_like_itself() {
        let (told, folder) = told("itself", |_, _| {});
        assert_eq!(told, "300 passed, 0 failed");
        assert!(!folder.exists());
    }

    #[test]
    fn another_number_is_caught() {
        is_caught("number", |outcome| {
            if outcome.number == 5 {
                outcome.number = 4;
            }
        });
    }

    #[test]
    fn another_length_is_caught() {
        is_caught("length", |outcome| {
            if outcome.number == 14 {
                outcome.length = 0;
            }
        });
    }

    #[test]
    fn another_byte_of_the_response_is_caught() {
        is_caught("byte", |outcome| {
            if outcome.number == 0 {
                let last = outcome.length - 1;
                outcome.buffer_mut()[last] ^= 1;
            }
        });
    }

    #[test]
    fn a_byte_written_behind_the_response_is_caught() {
        is_caught("behind", |outcome| {
            if outcome.number == 0 {
                let length = outcome.length;
                outcome.buffer_mut()[length..].fill(b'~');
            }
        });
    }

    #[test]
    fn a_buffer_touched_by_a_refusal_is_caught() {
        is_caught("touched", |outcome| {
            if outcome.number != 0 {
                outcome.buffer_mut().fill(b' ');
            }
        });
    }

    #[test]
    fn another_997_for_a_group_alone_is_caught() {
        let is_asked_alone = |case: &Case| case.buffer_length == 32 * case.interchange.len();
        let (told, folder) = told("alone", |case, outcomes| {
            if is_asked_alone(case) && outcomes.acknowledgment.number == 0 {
                outcomes.acknowledgment.number = 7;
            }
        });
        assert!(!told.ends_with(", 0 failed"), "{told}");
        for file in fs::read_dir(&folder).unwrap() {
            let text = fs::read_to_string(file.unwrap().path()).unwrap();
            assert!(text.contains("The library's entries agree."), "{text}");
            assert!(
                text.contains("The library gives a group another 997 than alone."),
                "{text}"
            );
        }
        fs::remove_dir_all(folder).unwrap();
    }

    #[test]
    fn a_difference_is_shrunk_and_written_with_both_answers() {
        // Wrong for every interchange with a segment K1.
        let (_, folder) = told("shrunk", |case, outcomes| {
            if case.interchange.windows(2).any(|id| id == b"K1") {
                outcomes.interchange.number = 99;
            }
        });
        for file in fs::read_dir(&folder).unwrap() {
            let text = fs::read_to_string(file.unwrap().path()).unwrap();
            assert!(
                text.contains("an interchange of 2 bytes:\n    K1\n"),
                "{text}"
            );
            assert!(
                text.contains("The second program: number 2, length 0"),
                "{text}"
            );
            assert!(text.contains("The library: number 99, length 0"), "{text}");
            assert!(
                text.contains("The library's entries do not agree."),
                "{text}"
            );
        }
        fs::remove_dir_all(folder).unwrap();
    }
}
