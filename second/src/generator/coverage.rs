//! What a run of cases has covered, counted in cases.

use super::Case;
use crate::Answer;
use std::collections::{BTreeMap, BTreeSet};
use std::fmt;

/// Something the rules can say in an answer.
#[derive(Debug, Clone, PartialEq, Eq, PartialOrd, Ord)]
pub enum Outcome {
    /// A number, and the program that gives it.
    Number(&'static str, u8),
    /// A code in an AK segment or in TA1, or the number of groups in GE: the
    /// segment's id and the code as written.
    Code(&'static str, String),
}

/// Every outcome the base tables can cause.
pub fn all_outcomes() -> Vec<Outcome> {
    let codes = |id: &'static str, list: &[&str]| -> Vec<Outcome> {
        let outcome = |code: &&str| Outcome::Code(id, code.to_string());
        list.iter().map(outcome).collect()
    };
    let number = |program| move |number| Outcome::Number(program, number);
    let mut all: Vec<Outcome> = (0..=14).map(number("ack")).collect();
    all.extend([0, 1, 2, 3, 4, 5, 14, 15].map(number("ta1")));
    all.extend(codes("AK3", &["1", "3", "5", "6", "7", "8"]));
    all.extend(codes(
        "AK4",
        &["1", "2", "3", "4", "5", "6", "7", "8", "12"],
    ));
    all.extend(codes("AK5", &["A", "R", "1", "2", "3", "4", "5", "23"]));
    all.extend(codes("AK9", &["A", "P", "R", "1", "2", "3", "4", "5"]));
    let counts: Vec<String> = (1..=16).map(|count| count.to_string()).collect();
    all.extend(counts.into_iter().map(|count| Outcome::Code("GE", count)));
    all.extend(codes("TA1", &["A", "R", "000", "001", "021", "022", "023"]));
    all
}

#[derive(Debug, Default)]
pub struct Coverage {
    cases: u64,
    families: BTreeMap<String, u64>,
    outcomes: BTreeMap<Outcome, u64>,
}

impl Coverage {
    pub fn count(&mut self, case: &Case) {
        self.cases += 1;
        *self.families.entry(case.family.name()).or_default() += 1;
        self.count_answer("ack", &case.answer());
        self.count_answer("ta1", &case.answer_interchange());
    }

    fn count_answer(&mut self, program: &'static str, answer: &Answer) {
        let mut outcomes = response_codes(answer.response());
        outcomes.insert(Outcome::Number(program, answer.number()));
        for outcome in outcomes {
            *self.outcomes.entry(outcome).or_default() += 1;
        }
    }

    /// In how many cases an outcome occurred.
    pub fn cases_with(&self, outcome: &Outcome) -> u64 {
        self.outcomes.get(outcome).copied().unwrap_or_default()
    }

    /// What occurred though the base tables can't cause it.
    pub fn unexpected(&self) -> Vec<&Outcome> {
        let expected = all_outcomes();
        let outcomes = self.outcomes.keys();
        outcomes
            .filter(|outcome| !expected.contains(outcome))
            .collect()
    }
}

impl fmt::Display for Coverage {
    fn fmt(&self, out: &mut fmt::Formatter) -> fmt::Result {
        writeln!(out, "{:>9} cases", self.cases)?;
        for (family, count) in &self.families {
            writeln!(out, "{count:>9} of family {family}")?;
        }
        for outcome in all_outcomes() {
            let count = self.cases_with(&outcome);
            match outcome {
                Outcome::Number(program, number) => {
                    writeln!(out, "{count:>9} {program} number {number}")?
                }
                Outcome::Code(id, code) => writeln!(out, "{count:>9} {id} {code}")?,
            }
        }
        for outcome in self.unexpected() {
            writeln!(out, "unexpected: {outcome:?}")?;
        }
        Ok(())
    }
}

/// The codes that stand in a response, by the delimiters it shows itself.
fn response_codes(response: &[u8]) -> BTreeSet<Outcome> {
    let (Some(&separator), Some(&terminator)) = (response.get(3), response.get(105)) else {
        return BTreeSet::new();
    };
    response
        .split(|&byte| byte == terminator)
        .flat_map(|segment| segment_codes(segment, separator))
        .collect()
}

fn segment_codes(segment: &[u8], separator: u8) -> Vec<Outcome> {
    let parts: Vec<&[u8]> = segment.split(|&byte| byte == separator).collect();
    let (id, codes) = match (parts[0], parts.as_slice()) {
        (b"AK3", [_, _, _, _, codes @ ..]) => ("AK3", codes.to_vec()),
        (b"AK4", [_, _, _, code, ..]) => ("AK4", vec![*code]),
        (b"AK5", [_, codes @ ..]) => ("AK5", codes.to_vec()),
        (b"AK9", [_, verdict, _, _, _, codes @ ..]) => ("AK9", [&[*verdict], codes].concat()),
        (b"GE", [_, count, ..]) => ("GE", vec![*count]),
        (b"TA1", [_, _, _, _, codes @ ..]) => ("TA1", codes.to_vec()),
        _ => return Vec::new(),
    };
    let code = |code: &[u8]| Outcome::Code(id, String::from_utf8_lossy(code).into_owned());
    codes.into_iter().map(code).collect()
}
