//! An interchange still in parts, which can be damaged part by part.

use super::content;
use super::days;
use super::prng::Prng;
use super::repetitions;
use crate::delimiters::Delimiters;

/// A segment as its id, then its elements: an element's index is its place.
pub type DraftSegment = Vec<Vec<u8>>;

#[derive(Debug, Clone)]
pub struct Draft {
    pub delimiters: Delimiters,
    /// ISA01 to ISA15.
    pub isa: [Vec<u8>; 15],
    /// From GS to IEA.
    pub segments: Vec<DraftSegment>,
    pub date: u32,
    pub time: u32,
    pub control: u32,
}

#[derive(Debug, Clone, Copy, PartialEq, Eq)]
pub enum Edition {
    Of004010,
    Of006010,
}

impl Edition {
    pub fn any(prng: &mut Prng) -> Self {
        *prng.pick(&[Edition::Of004010, Edition::Of006010])
    }
}

impl Draft {
    /// An interchange of one group that is accepted whole.
    pub fn clean(prng: &mut Prng, delimiters: Delimiters) -> Self {
        let sets = *prng.pick(&[1, 1, 1, 2, 2, 3, 5]);
        Draft::of_clean_sets(prng, delimiters, sets)
    }

    pub fn of_clean_sets(prng: &mut Prng, delimiters: Delimiters, sets: usize) -> Self {
        let edition = Edition::any(prng);
        let mut draft = Draft::without_sets(prng, delimiters, edition);
        for number in 1..=sets {
            let set = clean_set(prng, &delimiters, edition, number);
            draft.append_to_group(set);
        }
        draft.recount();
        draft
    }

    /// A clean envelope and group around no set.
    pub fn without_sets(prng: &mut Prng, delimiters: Delimiters, edition: Edition) -> Self {
        let interchange_control = content::digits(prng, 9);
        let group_control = {
            let length = prng.between(1, 9);
            content::digits(prng, length)
        };
        let mut draft = Draft {
            delimiters,
            isa: isa_fields(prng, &delimiters, &interchange_control),
            segments: vec![
                gs(prng, &delimiters, edition, &group_control),
                vec![b"GE".to_vec(), b"0".to_vec(), group_control],
                segment(&["IEA", ""], [interchange_control]),
            ],
            date: days::day(prng),
            time: content::time(prng),
            control: caller_control(prng),
        };
        draft.count_groups(prng);
        draft
    }

    pub fn groups(&self) -> usize {
        self.indices_of("GS").len()
    }

    /// Sets IEA01 to the right count, at times with leading zeros.
    pub fn count_groups(&mut self, prng: &mut Prng) {
        let width = *prng.pick(&[1, 1, 1, 2, 5]);
        let count = format!("{:0width$}", self.groups());
        self.set_iea(1, count);
    }

    pub fn set_iea(&mut self, place: usize, value: impl Into<Vec<u8>>) {
        if let Some(iea) = self.segments.last_mut() {
            set_element(iea, place, value);
        }
    }

    pub fn append_to_group(&mut self, segments: Vec<DraftSegment>) {
        let end = self.group_end();
        self.segments.splice(end..end, segments);
    }

    /// The index of GE, or of IEA where GE is missing.
    pub fn group_end(&self) -> usize {
        match self.indices_of("GE").first() {
            Some(&ge) => ge,
            None => self.segments.len() - 1,
        }
    }

    pub fn indices_of(&self, id: &str) -> Vec<usize> {
        self.indices_where(|segment| segment[0] == id.as_bytes())
    }

    pub fn indices_where(&self, wanted: impl Fn(&DraftSegment) -> bool) -> Vec<usize> {
        (0..self.segments.len())
            .filter(|&index| wanted(&self.segments[index]))
            .collect()
    }

    /// Sets every SE01 that has a place, and GE01, to the right count, where
    /// there is one group.
    pub fn recount(&mut self) {
        let mut sets = 0;
        let mut set_start = 0;
        for index in 0..self.segments.len() {
            let segment = &mut self.segments[index];
            match segment[0].as_slice() {
                b"ST" => {
                    sets += 1;
                    set_start = index;
                }
                b"SE" => set_element(segment, 1, (index - set_start + 1).to_string()),
                b"GE" => set_element(segment, 1, sets.to_string()),
                _ => {}
            }
        }
    }

    pub fn render(&self) -> Vec<u8> {
        let mut bytes = b"ISA".to_vec();
        for field in &self.isa {
            bytes.push(self.delimiters.element);
            bytes.extend(field);
        }
        bytes.push(self.delimiters.element);
        bytes.push(self.delimiters.component);
        bytes.push(self.delimiters.terminator);
        for segment in &self.segments {
            bytes.extend(segment.join(&self.delimiters.element));
            bytes.push(self.delimiters.terminator);
        }
        bytes
    }
}

/// Fills an element, if the segment reaches to its place.
pub fn set_element(segment: &mut DraftSegment, place: usize, value: impl Into<Vec<u8>>) {
    if let Some(element) = segment.get_mut(place) {
        *element = value.into();
    }
}

/// A segment of parts written out and further elements.
pub fn segment(parts: &[&str], more: impl IntoIterator<Item = Vec<u8>>) -> DraftSegment {
    let mut segment: DraftSegment = parts.iter().map(|part| part.as_bytes().to_vec()).collect();
    segment.extend(more);
    segment
}

fn isa_fields(prng: &mut Prng, delimiters: &Delimiters, control: &[u8]) -> [Vec<u8>; 15] {
    let usage = *prng.pick(b"PTI");
    let acknowledgment_requested = acknowledgment_requested(prng, delimiters);
    let [isa11, isa12] = repetitions::fields(prng, delimiters);
    let mut field = |length| content::text(prng, delimiters, length);
    [
        field(2),
        field(10),
        field(2),
        field(10),
        field(2),
        field(15),
        field(2),
        field(15),
        field(6),
        field(4),
        isa11,
        isa12,
        control.to_vec(),
        vec![acknowledgment_requested],
        vec![usage],
    ]
}

/// ISA14: `1` in most drafts, else `0`, another likely byte or any valid one.
fn acknowledgment_requested(prng: &mut Prng, delimiters: &Delimiters) -> u8 {
    match prng.below(20) {
        0..14 => b'1',
        14..17 => b'0',
        17 | 18 => *prng.pick(b" YNT2"),
        _ => content::valid_byte(prng, delimiters),
    }
}

fn gs(prng: &mut Prng, delimiters: &Delimiters, edition: Edition, control: &[u8]) -> DraftSegment {
    let mut version = match edition {
        Edition::Of004010 => b"004010".to_vec(),
        Edition::Of006010 => b"006010".to_vec(),
    };
    if prng.percent(20) {
        let length = prng.between(1, 6);
        version.extend(content::text(prng, delimiters, length));
    }
    let identifier = *prng.pick(&["GF", "SM"]);
    let mut text_between = |low, high| {
        let length = prng.between(low, high);
        content::text(prng, delimiters, length)
    };
    let parties = [text_between(2, 15), text_between(2, 15)];
    let agency = text_between(1, 2);
    let date = days::written(days::day(prng));
    let time = content::long_time(prng);
    let [sender, receiver] = parties;
    let rest = [
        sender,
        receiver,
        date,
        time,
        control.to_vec(),
        agency,
        version,
    ];
    segment(&["GS", identifier], rest)
}

/// A set that is accepted, with a control number that starts with `number`.
pub fn clean_set(
    prng: &mut Prng,
    delimiters: &Delimiters,
    edition: Edition,
    number: usize,
) -> Vec<DraftSegment> {
    let mut control = format!("{number:04}").into_bytes();
    if prng.percent(30) {
        let length = prng.between(1, 5);
        control.extend(content::text(prng, delimiters, length));
        control.truncate(9);
    }
    let mut header = segment(&["ST", "990"], [control.clone()]);
    if edition == Edition::Of006010 && prng.percent(20) {
        header.push(text_up_to(prng, delimiters, 35));
    }
    let mut set = vec![header, clean_b1(prng, delimiters)];
    match edition {
        Edition::Of006010 if prng.percent(50) => set.push(clean_l11(prng, delimiters)),
        Edition::Of006010 => {}
        Edition::Of004010 => {
            let uses = *prng.pick(&[0, 0, 1, 2, 9, 10]);
            set.extend((0..uses).map(|_| clean_k1(prng, delimiters)));
        }
    }
    set.push(segment(&["SE", ""], [control]));
    set
}

pub fn clean_b1(prng: &mut Prng, delimiters: &Delimiters) -> DraftSegment {
    let length = prng.between(2, 4);
    let carrier = content::text(prng, delimiters, length);
    let shipment = text_up_to(prng, delimiters, 30);
    let date = days::written(days::day(prng));
    let action = prng.pick(&[b"A", b"D"]).to_vec();
    let mut b1 = segment(&["B1"], [carrier, shipment, date, action]);
    leave_out_some(prng, &mut b1, &[2, 3, 4]);
    b1
}

pub fn clean_l11(prng: &mut Prng, delimiters: &Delimiters) -> DraftSegment {
    let reference = text_up_to(prng, delimiters, 30);
    let qualifier = {
        let length = prng.between(2, 3);
        content::text(prng, delimiters, length)
    };
    let description = text_up_to(prng, delimiters, 80);
    match prng.below(3) {
        0 => segment(&["L11"], [reference, qualifier]),
        1 => segment(&["L11", "", ""], [description]),
        _ => segment(&["L11"], [reference, qualifier, description]),
    }
}

pub fn clean_k1(prng: &mut Prng, delimiters: &Delimiters) -> DraftSegment {
    let mut k1 = segment(&["K1"], [text_up_to(prng, delimiters, 30)]);
    if prng.percent(40) {
        k1.push(text_up_to(prng, delimiters, 30));
    }
    k1
}

/// Text of 1 to `longest` bytes, most often short.
fn text_up_to(prng: &mut Prng, delimiters: &Delimiters, longest: usize) -> Vec<u8> {
    let length = match prng.below(10) {
        0 => longest,
        1 => prng.between(1, longest),
        _ => prng.between(1, longest.min(8)),
    };
    content::text(prng, delimiters, length)
}

fn leave_out_some(prng: &mut Prng, segment: &mut DraftSegment, places: &[usize]) {
    for &place in places {
        if prng.percent(30) {
            segment[place].clear();
        }
    }
    // Elements at the end may be left off or stand there empty.
    if prng.percent(50) {
        while segment.last().is_some_and(Vec::is_empty) {
            segment.pop();
        }
    }
}

fn caller_control(prng: &mut Prng) -> u32 {
    match prng.below(10) {
        0 => 1,
        1 => 999_999_999,
        digits => prng.between(1, 10usize.pow(digits as u32) - 1) as u32,
    }
}
