//! The generated cases cover what they are made for.

use second::exchange::{exchange, RESPONSE_BUFFER};
use second::generator::coverage::{all_outcomes, Coverage, Outcome};
use second::generator::{cases, standard_input, Case, Family};
use second::values::decimal;
use second::{answer, Answer};
use std::collections::{BTreeMap, BTreeSet};

const SEED: u64 = 990;

#[test]
fn every_number_and_code_occurs_often() {
    let mut coverage = Coverage::default();
    for case in cases(SEED).take(30_000) {
        coverage.count(&case);
    }
    for outcome in all_outcomes() {
        let count = coverage.cases_with(&outcome);
        assert!(count >= 20, "{outcome:?} in {count} cases only");
    }
    // Above all AK4 9 and 10, which the base tables never cause.
    assert!(
        coverage.unexpected().is_empty(),
        "{:?}",
        coverage.unexpected()
    );
}

#[test]
fn a_case_depends_on_its_seed_and_index_alone() {
    for (index, case) in (0..).zip(cases(SEED).take(200)) {
        assert_eq!(case, Case::make(SEED, index));
    }
    let other_seed = cases(SEED + 1).take(200);
    let same = cases(SEED)
        .take(200)
        .zip(other_seed)
        .filter(|(one, other)| one == other);
    assert_eq!(same.count(), 0);
}

#[test]
fn clean_cases_are_accepted_whole() {
    let mut coverage = Coverage::default();
    let clean = cases(SEED).filter(|case| case.family == Family::Clean);
    for case in clean.take(300) {
        coverage.count(&case);
    }
    let code = |id, code: &str| Outcome::Code(id, code.to_string());
    assert_eq!(coverage.cases_with(&code("AK9", "A")), 300);
    assert_eq!(coverage.cases_with(&code("AK5", "R")), 0);
}

#[test]
fn of_two_refusals_the_lower_number_is_given() {
    let mut seen = BTreeSet::new();
    for case in cases(SEED).take(20_000) {
        let expected = match case.family {
            Family::Refusal(number) => number,
            Family::RefusalPair(low, _) => low,
            _ => continue,
        };
        assert_eq!(case.answer().number(), expected, "{case:?}");
        seen.insert(case.family);
    }
    assert_eq!(seen.len(), 14 + 14 * 13 / 2);
}

/// What an interchange that is right but for these two refusals gets from the
/// entry with TA1: the number, or the note code.
fn ta1_of(low: u8, high: u8, isa14: u8) -> &'static [&'static str] {
    match (low, high) {
        (1..=5, _) => &["1", "2", "3", "4", "5"][usize::from(low) - 1..][..1],
        _ if isa14 != b'1' => &["15"],
        (6, _) => &["023"],
        (7, _) => &["022"],
        (8, _) => &["001", "021", "022"],
        _ => &["000"],
    }
}

/// The number of an answer, or the note code of its TA1.
fn told_by_ta1(answer: &Answer) -> String {
    match answer.response() {
        [] => answer.number().to_string(),
        response => String::from_utf8_lossy(&response[134..137]).into_owned(),
    }
}

#[test]
fn ta1_tells_of_the_first_fault_of_two() {
    let mut seen: BTreeMap<String, u32> = BTreeMap::new();
    for mut case in cases(SEED).take(20_000) {
        let (low, high) = match case.family {
            Family::Refusal(number) => (number, number),
            Family::RefusalPair(low, high) => (low, high),
            _ => continue,
        };
        case.buffer_length = RESPONSE_BUFFER;
        let isa14 = case.interchange.get(100).copied().unwrap_or_default();
        let told = told_by_ta1(&case.answer_interchange());
        assert!(
            ta1_of(low, high, isa14).contains(&told.as_str()),
            "{told} {case:?}"
        );
        *seen.entry(told).or_default() += 1;
    }
    assert_eq!(seen.len(), 11, "{seen:?}");
    assert!(seen.values().all(|&count| count >= 20), "{seen:?}");
}

/// What is remarkable about an interchange that asks for a TA1 and passes
/// checks 1 to 7, by its elements of IEA.
fn remarkable_iea(case: &Case) -> Option<&'static str> {
    let isa13 = &case.interchange[90..99];
    let (separator, terminator) = (case.interchange[3], case.interchange[105]);
    let segments = case.interchange.split(|&byte| byte == terminator);
    let iea = segments.rev().nth(1)?;
    let elements: Vec<&[u8]> = iea.split(|&byte| byte == separator).skip(1).collect();
    let differing = |iea02: &[u8]| -> Vec<usize> {
        let pairs = iea02.iter().zip(isa13).enumerate();
        let differing = pairs.filter(|(_, (one, other))| one != other);
        differing.map(|(at, _)| at).collect()
    };
    let is_one = |iea01: &[u8]| matches!(iea01, b"1" | b"01" | b"001" | b"0001" | b"00001");
    match elements[..] {
        [] => Some("no element"),
        [_] => Some("one element"),
        [b"", b""] => Some("two empty elements"),
        [b"000001", iea02] if iea02 == isa13 => Some("a count of six digits"),
        [iea01, iea02] if iea02 == isa13 && !is_one(iea01) => Some("a wrong count"),
        [iea01, iea02] if iea02 == isa13 && iea01.len() == 5 => Some("a count of five digits"),
        [iea01, iea02] if iea02 != isa13 && !is_one(iea01) => Some("both wrong"),
        [_, b""] => Some("no control number"),
        [_, iea02] if iea02.len() != 9 => Some("a control number of another length"),
        [_, iea02] if differing(iea02) == [0] => Some("another first digit"),
        [_, iea02] if differing(iea02) == [8] => Some("another last digit"),
        [_, _] => None,
        [_, iea02, b""] if iea02 == isa13 => Some("an empty third element"),
        [_, _, _] => Some("three elements"),
        [..] => Some("four elements"),
    }
}

#[test]
fn envelopes_are_remarkable_in_every_way() {
    let mut seen: BTreeMap<_, u32> = BTreeMap::new();
    let mut groups: BTreeMap<_, u32> = BTreeMap::new();
    let mut buffers: BTreeMap<_, u32> = BTreeMap::new();
    let envelopes = |&index: &u64| Family::of(SEED, index) == Family::Envelopes;
    for index in (0..50_000).filter(envelopes) {
        let case = Case::make(SEED, index);
        let roomy = Case {
            buffer_length: RESPONSE_BUFFER,
            ..case.clone()
        };
        let wants_ta1 = case.interchange.get(100) == Some(&b'1');
        let number = roomy.answer().number();
        if wants_ta1 && !(1..=7).contains(&number) {
            *seen.entry(remarkable_iea(&case)).or_default() += 1;
        }
        if roomy.answer_interchange().number() == 0 {
            *groups.entry(number).or_default() += 1;
        }
        let number = case.answer_interchange().number();
        *buffers.entry((case.buffer_length, number)).or_default() += 1;
    }
    seen.remove(&None);
    assert_eq!(seen.len(), 14, "{seen:?}");
    assert!(seen.values().all(|&count| count >= 20), "{seen:?}");
    assert!(groups.keys().copied().eq([0, 6, 7, 8, 9, 10, 11, 12, 13]));
    assert!(groups.values().all(|&count| count >= 20), "{groups:?}");
    for edge in [(0, 14), (153, 14), (153, 15), (154, 0), (155, 0)] {
        let count = buffers.get(&edge).copied();
        assert!(count >= Some(20), "{edge:?}: {count:?}");
    }
}

/// The segments of a case behind ISA, each as its id and its elements. Behind
/// the last terminator stands nothing.
fn segments(case: &Case) -> Vec<Vec<&[u8]>> {
    let (separator, terminator) = (case.interchange[3], case.interchange[105]);
    let mut segments: Vec<Vec<&[u8]>> = case.interchange[106..]
        .split(|&byte| byte == terminator)
        .map(|segment| segment.split(|&byte| byte == separator).collect())
        .collect();
    segments.pop();
    segments
}

/// The cases of one family among the first of the seed.
fn of_family(wanted: impl Fn(Family) -> bool, first: u64) -> impl Iterator<Item = Case> {
    (0..first)
        .filter(move |&index| wanted(Family::of(SEED, index)))
        .map(|index| Case::make(SEED, index))
}

/// One group of a case, as an interchange of its own.
fn alone(case: &Case, group: &[Vec<&[u8]>]) -> Case {
    let (separator, terminator) = (case.interchange[3], case.interchange[105]);
    let iea = vec![b"IEA".as_slice(), b"1", &case.interchange[90..99]];
    let mut interchange = case.interchange[..106].to_vec();
    for segment in group.iter().chain([&iea]) {
        interchange.extend(segment.join(&separator));
        interchange.push(terminator);
    }
    Case {
        interchange,
        ..case.clone()
    }
}

/// The groups of segments that end with IEA and begin with GS.
fn groups<'a>(segments: &'a [Vec<&'a [u8]>]) -> Vec<&'a [Vec<&'a [u8]>]> {
    let [groups @ .., _] = segments else {
        return Vec::new();
    };
    groups.chunk_by(|_, next| next[0] != b"GS").collect()
}

#[test]
fn groups_are_refused_at_every_place() {
    let mut seen: BTreeMap<(u8, usize), u32> = BTreeMap::new();
    let refused = |family| matches!(family, Family::RefusedGroups(9..));
    for case in of_family(refused, 200_000) {
        let number = case.answer().number();
        assert_eq!(case.family, Family::RefusedGroups(number), "{case:?}");
        let segments = segments(&case);
        let mut numbers = groups(&segments)
            .into_iter()
            .map(|group| alone(&case, group).answer().number());
        let place = numbers.position(|number| number != 0).unwrap();
        *seen.entry((number, place)).or_default() += 1;
    }
    assert_eq!(seen.len(), 5 * 16, "{seen:?}");
}

/// What stands in the way of a good order, from ids without ISA.
fn fault_of_order(ids: &[&[u8]]) -> &'static str {
    let groups = ids.iter().filter(|&&id| id == b"GS").count();
    let ends = |id: &[u8]| id == b"GS" || id == b"IEA";
    let outside = ids.windows(3).find(|ids| ids[0] == b"GE" && ends(ids[2]));
    let envelope: Vec<&[u8]> = ids
        .iter()
        .copied()
        .filter(|id| matches!(*id, b"GS" | b"GE" | b"ISA" | b"IEA"))
        .collect();
    let has = |pair: [&[u8]; 2]| envelope.windows(2).any(|ids| ids == pair);
    match outside {
        _ if groups > 16 => "too many groups",
        Some([_, b"GE", b"GS"]) => "GE twice between groups",
        Some([_, b"GE", _]) => "GE twice at the end",
        Some([_, b"", b"GS"]) => "an empty segment between groups",
        Some([_, b"", _]) => "an empty segment after the last GE",
        Some([_, b"ISA" | b"IEA", _]) => "ISA or IEA between groups",
        Some([_, _, b"GS"]) => "a segment between groups",
        Some(_) => "a segment after the last GE",
        None if has([b"GS", b"GS"]) => "a missing inner GE",
        None if has([b"GE", b"GE"]) => "a missing inner GS",
        None => "another fault",
    }
}

#[test]
fn the_order_of_groups_is_spoiled_in_every_way() {
    let mut seen: BTreeMap<_, u32> = BTreeMap::new();
    for case in of_family(|family| family == Family::RefusedGroups(7), 200_000) {
        assert_eq!(case.answer().number(), 7, "{case:?}");
        let segments = segments(&case);
        let ids: Vec<&[u8]> = segments.iter().map(|segment| segment[0]).collect();
        *seen.entry(fault_of_order(&ids)).or_default() += 1;
    }
    assert_eq!(seen.len(), 11, "{seen:?}");
    assert!(seen.values().all(|&count| count >= 20), "{seen:?}");
}

/// How IEA01 of several groups is wrong, or right.
fn count_of_groups(iea01: &[u8], groups: usize) -> Option<&'static str> {
    let text = std::str::from_utf8(iea01).ok()?;
    let value: Option<usize> = text.parse().ok().filter(|_| !text.starts_with('+'));
    match value {
        Some(value) if value == groups && text.len() > 5 => Some("right, of six digits or more"),
        Some(value) if value == groups && text.len() == 5 => Some("right, of five digits"),
        Some(value) if value == groups && text.starts_with('0') => Some("right, with zeros"),
        Some(value) if value == groups => Some("right"),
        Some(1) => Some("one"),
        Some(value) if value + 1 == groups => Some("one less"),
        Some(value) if value == groups + 1 => Some("one more"),
        Some(_) => Some("far off"),
        None => Some("no number"),
    }
}

#[test]
fn groups_are_counted_in_every_way() {
    let mut seen: BTreeMap<_, u32> = BTreeMap::new();
    let counted = |family| matches!(family, Family::Groups | Family::RefusedGroups(8..));
    for case in of_family(counted, 100_000) {
        let segments = segments(&case);
        let groups = groups(&segments).len();
        if let [_, iea01, _] = segments[segments.len() - 1][..] {
            if groups > 1 {
                let entry = seen.entry(count_of_groups(iea01, groups));
                *entry.or_default() += 1;
            }
        }
    }
    seen.remove(&None);
    assert_eq!(seen.len(), 9, "{seen:?}");
    assert!(seen.values().all(|&count| count >= 20), "{seen:?}");
}

#[test]
fn faults_around_groups_have_every_note_code() {
    let mut seen: BTreeMap<_, u32> = BTreeMap::new();
    let refused = |family| matches!(family, Family::RefusedGroups(_));
    for case in of_family(refused, 50_000) {
        let Family::RefusedGroups(number) = case.family else {
            continue;
        };
        let told = told_by_ta1(&case.answer_interchange());
        let expected = ta1_of(number, number, case.interchange[100]);
        assert!(expected.contains(&told.as_str()), "{told} {case:?}");
        *seen.entry((number, told)).or_default() += 1;
    }
    // 7: 022; 8: 001, 021, 022; 9 to 13: 000; and 15 for each.
    assert_eq!(seen.len(), 1 + 3 + 5 + 7, "{seen:?}");
    assert!(seen.values().all(|&count| count >= 20), "{seen:?}");
}

/// What is remarkable about the groups of an interchange.
fn remarkable_groups(segments: &[Vec<&[u8]>]) -> Vec<&'static str> {
    let groups = groups(segments);
    let elements = |place: usize| -> Vec<&[u8]> {
        let headers = groups.iter().map(|group| &group[0]);
        headers.filter_map(|gs| gs.get(place).copied()).collect()
    };
    let different = |values: Vec<&[u8]>| values.into_iter().collect::<BTreeSet<_>>().len();
    let editions = elements(8)
        .into_iter()
        .map(|gs08| &gs08[..gs08.len().min(6)]);
    let control_numbers = |group: &[Vec<&'_ [u8]>]| -> Vec<Vec<u8>> {
        let headers = group.iter().filter(|segment| segment[0] == b"ST");
        headers
            .filter_map(|st| st.get(2).map(|st02| st02.to_vec()))
            .collect()
    };
    let numbers: Vec<Vec<Vec<u8>>> = groups.iter().map(|group| control_numbers(group)).collect();
    let again_within =
        |numbers: &Vec<Vec<u8>>| numbers.iter().collect::<BTreeSet<_>>().len() < numbers.len();
    let again_elsewhere = numbers
        .windows(2)
        .any(|pair| pair[0].iter().any(|number| pair[1].contains(number)));
    let closed = |group: &&[Vec<&[u8]>]| group[group.len() - 1][0] == b"GE";
    let is_supported = |gs01: &&[u8]| matches!(*gs01, b"GF" | b"SM");
    let supported = elements(1).iter().filter(|gs01| is_supported(gs01)).count();
    [
        (different(elements(6)) < groups.len(), "the same GS06"),
        (different(elements(6)) == groups.len(), "different GS06"),
        (different(elements(2)) == 1, "the same sender"),
        (different(elements(3)) > 1, "different receivers"),
        (different(elements(1)) > 1, "different GS01"),
        (supported < groups.len(), "a GS01 not supported"),
        (
            different(editions.clone().collect()) == 1,
            "the same edition",
        ),
        (different(editions.collect()) > 1, "different editions"),
        (numbers.iter().any(again_within), "ST02 again in its group"),
        (again_elsewhere, "ST02 again in the next group"),
        (!groups.iter().all(closed), "no last GE"),
    ]
    .into_iter()
    .filter_map(|(applies, what)| applies.then_some(what))
    .collect()
}

#[test]
fn groups_are_remarkable_in_every_way() {
    let mut seen: BTreeMap<_, u32> = BTreeMap::new();
    let (mut cases, mut answered) = (0, 0);
    for case in of_family(|family| family == Family::Groups, 50_000) {
        let segments = segments(&case);
        let groups = groups(&segments).len();
        cases += 1;
        answered += u32::from(case.answer().number() == 0);
        if groups > 1 {
            for what in remarkable_groups(&segments) {
                *seen.entry(what).or_default() += 1;
            }
        }
    }
    assert_eq!(seen.len(), 11, "{seen:?}");
    assert!(seen.values().all(|&count| count >= 100), "{seen:?}");
    assert!(answered * 3 > cases * 2, "{answered} of {cases}");
}

#[test]
fn large_groups_have_the_same_control_numbers() {
    let (mut again, mut within, mut most) = (0, 0, 0);
    for case in of_family(|family| family == Family::LargeGroups, 50_000) {
        assert!(case.interchange.len() <= 65_536);
        let segments = segments(&case);
        let what = remarkable_groups(&segments);
        again += u32::from(what.contains(&"ST02 again in the next group"));
        within += u32::from(what.contains(&"ST02 again in its group"));
        let sets = segments.iter().filter(|segment| segment[0] == b"ST");
        most = most.max(sets.count());
    }
    assert!(again >= 50 && within >= 20, "{again} {within}");
    assert!(most > 3_000, "{most}");
}

#[test]
fn refusal_14_is_met_from_both_sides() {
    let (mut fits, mut one_short) = (0, 0);
    for case in cases(SEED).take(6_000) {
        match case.answer() {
            Answer::Acknowledged(response) if response.len() == case.buffer_length => fits += 1,
            refused if refused.number() == 14 && refused.length() == case.buffer_length + 1 => {
                one_short += 1;
            }
            _ => {}
        }
    }
    assert!(fits >= 20 && one_short >= 20, "{fits} {one_short}");
}

#[test]
fn the_limits_of_size_are_met_from_both_sides() {
    let lengths: BTreeSet<usize> = cases(SEED)
        .take(30_000)
        .map(|case| case.interchange.len())
        .collect();
    for length in [105, 106, 107, 65_535, 65_536, 65_537] {
        assert!(lengths.contains(&length), "{length}");
    }
}

/// The caller's date, GS04 and each B103 of a case, so far as they are numbers.
fn days(case: &Case) -> Vec<(&'static str, u32)> {
    let (separator, terminator) = (case.interchange[3], case.interchange[105]);
    let mut days = vec![("caller", case.date)];
    for segment in case.interchange.split(|&byte| byte == terminator) {
        let elements: Vec<&[u8]> = segment.split(|&byte| byte == separator).collect();
        let (place, element) = match elements[..] {
            [b"GS", _, _, _, gs04, ..] => ("GS04", gs04),
            [b"B1", _, _, b103, ..] => ("B103", b103),
            _ => continue,
        };
        let day = String::from_utf8_lossy(element).parse();
        days.extend(day.map(|day| (place, day)));
    }
    days
}

/// What the length of a year's February goes by.
fn kind(year: u32) -> &'static str {
    match (year, year % 400, year % 100, year % 4) {
        (0, ..) => "zero",
        (_, 0, ..) => "four-hundred",
        (_, _, 0, _) => "hundred",
        (.., 0) => "leap",
        _ => "common",
    }
}

#[test]
fn days_around_the_ends_of_months_stand_in_each_place() {
    let month_ends = |&index: &u64| Family::of(SEED, index) == Family::MonthEnds;
    let (mut cases, mut answered, mut in_isa09) = (0, 0, 0);
    let mut februaries: BTreeMap<_, u32> = BTreeMap::new();
    let mut months: BTreeMap<_, u32> = BTreeMap::new();
    for index in (0..200_000).filter(month_ends) {
        let case = Case::make(SEED, index);
        cases += 1;
        answered += u32::from(case.answer().number() == 0);
        in_isa09 += u32::from(&case.interchange[72..76] == b"0230");
        for (place, date) in days(&case) {
            let (year, month, day) = (date / 10_000, date / 100 % 100, date % 100);
            if month == 2 {
                *februaries.entry((place, kind(year), day)).or_default() += 1;
            } else {
                *months.entry((place, month, day)).or_default() += 1;
            }
        }
    }
    for place in ["caller", "GS04", "B103"] {
        for kind in ["common", "leap", "hundred", "four-hundred", "zero"] {
            for day in 28..=30 {
                let count = februaries.get(&(place, kind, day)).copied();
                assert!(count >= Some(10), "{place} {kind} {day}: {count:?}");
            }
        }
        for month in [1, 3, 4, 5, 6, 7, 8, 9, 10, 11, 12] {
            for day in 30..=31 {
                let count = months.get(&(place, month, day)).copied();
                assert!(count >= Some(10), "{place} {month} {day}: {count:?}");
            }
        }
    }
    assert!(in_isa09 >= 20, "{in_isa09}");
    assert!(answered * 4 > cases * 3, "{answered} of {cases}");
}

/// The elements that a table can have in the sets of a case, each as the id of
/// its segment and its bytes. ST01 and ST02 are left out.
fn elements(case: &Case) -> Vec<(&[u8], &[u8])> {
    let (separator, terminator) = (case.interchange[3], case.interchange[105]);
    let mut elements = Vec::new();
    for segment in case.interchange.split(|&byte| byte == terminator) {
        let mut fields = segment.split(|&byte| byte == separator);
        let id = fields.next().unwrap_or_default();
        let skipped = match id {
            b"ST" => 2,
            b"B1" | b"L11" | b"K1" | b"SE" => 0,
            _ => continue,
        };
        elements.extend(fields.skip(skipped).map(|element| (id, element)));
    }
    elements
}

/// What is remarkable about a value, if anything is.
fn remarkable(id: &[u8], value: &[u8], component: u8) -> Option<&'static str> {
    let invalid = |&byte: &u8| !(32..=126).contains(&byte) || byte == component;
    let digits = value.strip_prefix(b"-").filter(|_| id == b"SE");
    match (value.iter().position(invalid), digits, value.len()) {
        (Some(98), ..) => Some("a bad byte at place 99"),
        (Some(99), ..) => Some("a bad byte at place 100"),
        (Some(149), ..) => Some("a bad byte at place 150"),
        (Some(_), ..) => None,
        (_, Some(b""), _) => Some("a lone minus"),
        (_, Some(digits), _) if digits.len() == 10 => Some("a minus and ten digits"),
        (_, Some(digits), _) if digits.len() == 11 => Some("a minus and eleven digits"),
        (_, Some(digits), _) if digits.len() > 98 => Some("a minus and many digits"),
        (.., 1..=9) if value.trim_ascii().is_empty() => Some("a few spaces"),
        (.., 31..) if value.trim_ascii().is_empty() => Some("many spaces"),
        (.., 98) => Some("98 bytes"),
        (.., 99) => Some("99 bytes"),
        (.., 100) => Some("100 bytes"),
        (.., 120) => Some("120 bytes"),
        (.., 200..) => Some("hundreds of bytes"),
        _ => None,
    }
}

#[test]
fn values_stand_on_both_sides_of_the_cut() {
    let mut values: BTreeMap<_, u32> = BTreeMap::new();
    let (mut fits, mut one_short) = (0, 0);
    let echoes = |&index: &u64| Family::of(SEED, index) == Family::Echoes;
    for case in (0..50_000)
        .filter(echoes)
        .map(|index| Case::make(SEED, index))
    {
        let component = case.interchange[104];
        for (id, value) in elements(&case) {
            *values.entry(remarkable(id, value, component)).or_default() += 1;
        }
        let answer = case.answer();
        fits += u32::from(answer.number() == 0 && answer.length() == case.buffer_length);
        one_short += u32::from(answer.number() == 14 && answer.length() == case.buffer_length + 1);
    }
    values.remove(&None);
    assert_eq!(values.len(), 14, "{values:?}");
    assert!(values.values().all(|&count| count >= 20), "{values:?}");
    assert!(fits >= 100 && one_short >= 100, "{fits} {one_short}");
}

#[test]
fn groups_and_sets_are_as_large_as_fits() {
    let (mut most_sets, mut most_segments) = (0, 0);
    let large = [Family::ManySets, Family::ManyNotes];
    let indices = (0..20_000).filter(|&index| large.contains(&Family::of(SEED, index)));
    for index in indices {
        let interchange = Case::make(SEED, index).interchange;
        assert!(interchange.len() <= 65_536, "{index}");
        let segments = interchange.split(|&byte| byte == interchange[105]);
        let headers = |segment: &&[u8]| segment.starts_with(&[b'S', b'T', interchange[3]]);
        most_segments = most_segments.max(segments.clone().count());
        most_sets = most_sets.max(segments.filter(headers).count());
    }
    assert!(most_sets > 5_400, "{most_sets}");
    assert!(most_segments > 65_000, "{most_segments}");
}

#[test]
fn whole_exchanges_have_good_and_bad_first_lines() {
    let (mut good, mut bad) = (0, 0);
    for index in 0..3_000 {
        let case = Case::make(SEED, index);
        let direct = answer(
            &case.interchange,
            RESPONSE_BUFFER,
            case.date,
            case.time,
            case.control,
        );
        let printed = exchange(answer, &standard_input(SEED, index));
        if direct.number() == 1 {
            assert_eq!(printed, b"refused 1\n");
        } else if printed == b"refused 1\n" {
            bad += 1;
        } else if direct.number() == 0 {
            assert_eq!(printed, direct.response());
            good += 1;
        } else {
            let refused = format!("refused {}\n", direct.number());
            assert_eq!(printed, refused.as_bytes());
        }
    }
    assert!(good > 1_000 && bad > 300, "{good} {bad}");
}

const ISA11: usize = 82;

fn kind_of_isa11(interchange: &[u8]) -> &'static str {
    match interchange[ISA11] {
        byte if byte == interchange[3] => "the element separator",
        byte if byte == interchange[104] => "the component separator",
        byte if byte == interchange[105] => "the terminator",
        b'U' => "U",
        b'u' => "u",
        b'^' => "a circumflex",
        b'-' => "a minus",
        b' ' => "a space",
        0 => "a zero byte",
        b'\n' => "a line feed",
        0x1E => "30",
        0xFF => "255",
        byte if byte.is_ascii_alphabetic() => "a letter",
        byte if byte.is_ascii_digit() => "a digit",
        _ => "another byte",
    }
}

fn kind_of_isa12(interchange: &[u8]) -> &'static str {
    let isa12 = &interchange[84..89];
    match decimal(isa12, 5) {
        Some(401) => "00401",
        Some(402) => "00402",
        Some(..401) => "less",
        Some(403..10_000) => "more",
        Some(_) => "10000 or more",
        None if isa12.contains(&interchange[ISA11]) => "with ISA11",
        None => "no number",
    }
}

/// Whether the ISA of a case has four delimiters, all of which are good.
fn repeats(case: &Case) -> bool {
    let isa11 = kind_of_isa11(&case.interchange);
    let isa12 = kind_of_isa12(&case.interchange);
    let good = [
        "a circumflex",
        "a minus",
        "a zero byte",
        "a line feed",
        "30",
        "255",
    ];
    good.contains(&isa11) && ["00402", "more", "10000 or more"].contains(&isa12)
}

#[test]
fn isa11_and_isa12_meet_in_every_way() {
    let mut seen: BTreeMap<_, u32> = BTreeMap::new();
    for case in of_family(|family| family == Family::Repetitions, 200_000) {
        let isa11 = kind_of_isa11(&case.interchange);
        let isa12 = kind_of_isa12(&case.interchange);
        *seen.entry((isa11, isa12)).or_default() += 1;
    }
    // An ISA12 that holds ISA11 may be a number where ISA11 is a digit.
    seen.remove(&("a digit", "with ISA11"));
    assert_eq!(seen.len(), 15 * 7 - 1, "{seen:?}");
    assert!(seen.values().all(|&count| count >= 3), "{seen:?}");
}

/// The places in which the repetition separator stands, as the id of the
/// segment and its place. A segment that the directory does not have is `?`.
fn repetitions(case: &Case) -> BTreeSet<(String, usize)> {
    let separator = case.interchange[ISA11];
    let isa = case.interchange[..105].split(|&byte| byte == case.interchange[3]);
    let isa: Vec<&[u8]> = isa.collect();
    let mut found = BTreeSet::new();
    for segment in std::iter::once(isa).chain(segments(case)) {
        let id = match segment[0] {
            b"ISA" | b"GS" | b"ST" | b"B1" | b"L11" | b"K1" | b"SE" | b"GE" | b"IEA" => segment[0],
            _ => b"?",
        };
        let id = String::from_utf8_lossy(id);
        for (place, element) in segment.iter().enumerate() {
            if element.contains(&separator) {
                found.insert((id.to_string(), place));
            }
        }
    }
    found.remove(&("ISA".to_string(), 11));
    found
}

#[test]
fn the_repetition_separator_stands_in_every_place() {
    let mut seen: BTreeMap<_, u32> = BTreeMap::new();
    let mut groups_of_answered: BTreeMap<usize, u32> = BTreeMap::new();
    for case in of_family(|family| family == Family::Repetitions, 200_000) {
        if !repeats(&case) {
            continue;
        }
        for place in repetitions(&case) {
            *seen.entry(place).or_default() += 1;
        }
        if case.answer().number() == 0 {
            let groups = groups(&segments(&case)).len();
            *groups_of_answered.entry(groups).or_default() += 1;
        }
    }
    for (id, places) in [
        ("ISA", 1..=10),
        ("ISA", 13..=15),
        ("GS", 1..=8),
        ("ST", 1..=4),
        ("B1", 1..=5),
        ("L11", 1..=4),
        ("K1", 1..=3),
        ("SE", 1..=3),
        ("GE", 1..=3),
        ("IEA", 1..=2),
        ("?", 0..=2),
    ] {
        for place in places {
            let count = seen.get(&(id.to_string(), place)).copied();
            assert!(count >= Some(20), "{id} {place}: {count:?}");
        }
    }
    for groups in 1..=3 {
        let count = groups_of_answered.get(&groups).copied();
        assert!(count >= Some(500), "{groups} groups: {count:?}");
    }
}
