//! That each 997 of a response is the one which its group gets alone.

use crate::interchange::{alone, groups, Group};
use crate::outcome::Outcome;
use crate::response::{Acknowledgment, Response};
use second::generator::Case;

/// ST02 and SE02 of the only 997 of a response.
const FIRST: &[u8] = b"0001";

/// Whether the 997s of an answer are those which the library gives to the
/// groups one by one, but for ST02 and SE02. A refusal and an answer to one
/// group have nothing to compare.
pub fn each_as_alone(library: impl Fn(&Case) -> Outcome, case: &Case, together: &Outcome) -> bool {
    if together.number != 0 {
        return true;
    }
    let groups = groups(&case.interchange);
    if groups.len() < 2 {
        return true;
    }
    let Some(response) = Response::cut(together.response()) else {
        return false;
    };
    let as_alone = |(count, (group, found)): (usize, (&Group, &Acknowledgment))| {
        let outcome = library(&alone(case, group));
        let number = format!("{count:04}");
        let expected = Response::cut(outcome.response())
            .filter(|alone| outcome.number == 0 && alone.delimiters == response.delimiters);
        match expected.map(|alone| alone.acknowledgments).as_deref() {
            Some([alone]) => {
                *alone == alone.numbered(FIRST) && *found == alone.numbered(number.as_bytes())
            }
            _ => false,
        }
    };
    let pairs = groups.iter().zip(&response.acknowledgments);
    groups.len() == response.acknowledgments.len() && (1..).zip(pairs).all(as_alone)
}
