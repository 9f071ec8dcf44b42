//! Where the groups and sets of an interchange stand that is answered.

use second::generator::Case;
use second::isa::ISA_LENGTH;
use std::ops::Range;

/// No segment between header and trailer of a set has one of these ids.
pub const FRAME: [&[u8]; 6] = [b"ISA", b"GS", b"ST", b"SE", b"GE", b"IEA"];

/// A response is never longer than this many times its interchange.
const LONGEST_RESPONSE: usize = 32;

/// Where ISA13 stands.
const ISA13: Range<usize> = 90..99;

pub struct Group {
    /// From GS to GE, or to where IEA starts if GE is missing.
    pub bytes: Range<usize>,
    /// The bytes between header and trailer of each set. A set without a
    /// trailer ends where the next set starts, or with the group.
    pub insides: Vec<Range<usize>>,
}

pub fn groups(interchange: &[u8]) -> Vec<Group> {
    let (separator, terminator) = separator_and_terminator(interchange);
    let mut groups: Vec<Group> = Vec::new();
    let mut open = None;
    let mut at = ISA_LENGTH;
    for segment in interchange[ISA_LENGTH..].split_inclusive(|&byte| byte == terminator) {
        let end = at + segment.len();
        let id = id(&segment[..segment.len() - 1], separator);
        if id == b"GS" {
            groups.push(Group {
                bytes: at..end,
                insides: Vec::new(),
            });
        }
        if let Some(group) = groups.last_mut().filter(|_| id != b"IEA") {
            group.bytes.end = end;
        }
        if FRAME.contains(&id) {
            let inside = open.take().map(|start| start..at);
            if let Some(group) = groups.last_mut() {
                group.insides.extend(inside);
            }
        }
        if id == b"ST" {
            open = Some(end);
        }
        at = end;
    }
    groups
}

pub fn separator_and_terminator(interchange: &[u8]) -> (u8, u8) {
    (interchange[3], interchange[105])
}

pub fn id(segment: &[u8], separator: u8) -> &[u8] {
    let mut fields = segment.split(|&byte| byte == separator);
    fields.next().unwrap_or_default()
}

/// The case with one group alone in its interchange, and a buffer in which any
/// response fits.
pub fn alone(case: &Case, group: &Group) -> Case {
    let (separator, terminator) = separator_and_terminator(&case.interchange);
    let isa13 = &case.interchange[ISA13];
    let iea = [b"IEA".as_slice(), b"1", isa13].join(&separator);
    let isa = &case.interchange[..ISA_LENGTH];
    let group = &case.interchange[group.bytes.clone()];
    roomy(Case {
        interchange: [isa, group, &iea, &[terminator]].concat(),
        ..case.clone()
    })
}

/// The case with a buffer in which any response fits.
pub fn roomy(case: Case) -> Case {
    Case {
        buffer_length: LONGEST_RESPONSE * case.interchange.len(),
        ..case
    }
}

#[cfg(test)]
mod tests {
    use super::*;

    const HEAD: &str = "ISA*00*          *00*          *ZZ*CARRIERA       *ZZ*BROKERB        \
                        *240315*0915*U*00601*000000042*0*T*>~";

    #[test]
    fn the_groups_with_and_without_ge() {
        let interchange = format!("{HEAD}GS*1~ST~SE~GE~GS*2~GE~GS*3~ST~IEA~");
        let found: Vec<&str> = groups(interchange.as_bytes())
            .into_iter()
            .map(|group| &interchange[group.bytes])
            .collect();
        assert_eq!(found, ["GS*1~ST~SE~GE~", "GS*2~GE~", "GS*3~ST~"]);
    }

    #[test]
    fn the_insides_of_sets_with_and_without_trailers() {
        let interchange =
            format!("{HEAD}GS~ST*1~B1~~SE~ST*2~SE~ST*3~X*SE~ST*4~Y~GE~GS~ST*5~Z~IEA~");
        let found: Vec<Vec<&str>> = groups(interchange.as_bytes())
            .into_iter()
            .map(|group| {
                let insides = group.insides.into_iter();
                insides.map(|inside| &interchange[inside]).collect()
            })
            .collect();
        assert_eq!(found, [vec!["B1~~", "", "X*SE~", "Y~"], vec!["Z~"]]);
    }

    #[test]
    fn a_group_alone_has_the_isa_of_its_interchange() {
        let interchange = format!("{HEAD}GS*1~ST~GE~GS*2~ST~IEA*2*000000042~");
        let case = Case {
            interchange: interchange.into_bytes(),
            ..Case::make(990, 0)
        };
        let found: Vec<String> = groups(&case.interchange)
            .iter()
            .map(|group| String::from_utf8(alone(&case, group).interchange).unwrap())
            .collect();
        let expected =
            ["GS*1~ST~GE~", "GS*2~ST~"].map(|group| format!("{HEAD}{group}IEA*1*000000042~"));
        assert_eq!(found, expected);
    }
}
