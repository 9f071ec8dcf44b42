//! The segment directory and the two editions of transaction set 990.

/// X12 element types as far as the rules name them.
#[derive(Debug, Clone, Copy, PartialEq, Eq)]
pub enum ElementType {
    Id,
    An,
    N0,
    Dt,
    Tm,
}

#[derive(Debug, Clone, Copy, PartialEq, Eq)]
pub enum Need {
    Mandatory,
    Optional,
}

/// One element of a segment: its reference number, need, type and lengths.
#[derive(Debug, Clone, Copy)]
pub struct ElementRow {
    pub reference: u16,
    pub need: Need,
    pub element_type: ElementType,
    pub shortest: usize,
    pub longest: usize,
    pub code_list: Option<&'static [&'static [u8]]>,
}

/// The relations of X12.6 between elements of one segment.
#[derive(Debug, Clone, Copy, PartialEq, Eq)]
pub enum Relation {
    /// P
    PairedOrMultiple,
    /// R
    Required,
    /// E
    Exclusion,
    /// C
    Conditional,
    /// L
    ListConditional,
}

/// A syntax note, such as P0102: a relation and the places it names.
#[derive(Debug, Clone, Copy)]
pub struct SyntaxNote {
    pub relation: Relation,
    pub places: &'static [usize],
}

#[derive(Debug, Clone, Copy)]
pub struct SegmentLayout {
    pub id: &'static [u8],
    pub elements: &'static [ElementRow],
    pub syntax_notes: &'static [SyntaxNote],
}

/// One place in an edition's table.
#[derive(Debug, Clone, Copy)]
pub struct Entry {
    pub layout: &'static SegmentLayout,
    pub need: Need,
    pub maximum_use: usize,
}

/// The segments of a transaction set in their order, from ST to SE.
pub type Edition = &'static [Entry];

/// The edition that GS08 names with its first six bytes.
pub fn edition(version: &[u8]) -> Option<Edition> {
    match version.get(..6)? {
        b"006010" => Some(EDITION_006010),
        b"004010" => Some(EDITION_004010),
        _ => None,
    }
}

pub fn in_directory(id: &[u8]) -> bool {
    matches!(id, b"ST" | b"SE" | b"B1" | b"L11" | b"K1")
}

pub const EDITION_006010: Edition = &[
    entry(&ST_006010, Need::Mandatory, 1),
    entry(&B1, Need::Mandatory, 1),
    entry(&L11, Need::Optional, 1),
    entry(&SE, Need::Mandatory, 1),
];

pub const EDITION_004010: Edition = &[
    entry(&ST_004010, Need::Mandatory, 1),
    entry(&B1, Need::Mandatory, 1),
    entry(&K1, Need::Optional, 10),
    entry(&SE, Need::Mandatory, 1),
];

const ST_006010: SegmentLayout = SegmentLayout {
    id: b"ST",
    elements: &[
        mandatory(143, ElementType::Id, 3, 3),
        mandatory(329, ElementType::An, 4, 9),
        optional(1705, ElementType::An, 1, 35),
    ],
    syntax_notes: &[],
};

const ST_004010: SegmentLayout = SegmentLayout {
    id: b"ST",
    elements: &[
        mandatory(143, ElementType::Id, 3, 3),
        mandatory(329, ElementType::An, 4, 9),
    ],
    syntax_notes: &[],
};

const SE: SegmentLayout = SegmentLayout {
    id: b"SE",
    elements: &[
        mandatory(96, ElementType::N0, 1, 10),
        mandatory(329, ElementType::An, 4, 9),
    ],
    syntax_notes: &[],
};

pub const B1: SegmentLayout = SegmentLayout {
    id: b"B1",
    elements: &[
        mandatory(140, ElementType::Id, 2, 4),
        optional(145, ElementType::An, 1, 30),
        optional(373, ElementType::Dt, 8, 8),
        ElementRow {
            code_list: Some(&[b"A", b"D"]),
            ..optional(558, ElementType::Id, 1, 1)
        },
    ],
    syntax_notes: &[],
};

pub const L11: SegmentLayout = SegmentLayout {
    id: b"L11",
    elements: &[
        optional(127, ElementType::An, 1, 30),
        optional(128, ElementType::Id, 2, 3),
        optional(352, ElementType::An, 1, 80),
    ],
    syntax_notes: &[
        SyntaxNote {
            relation: Relation::PairedOrMultiple,
            places: &[1, 2],
        },
        SyntaxNote {
            relation: Relation::Required,
            places: &[1, 3],
        },
    ],
};

const K1: SegmentLayout = SegmentLayout {
    id: b"K1",
    elements: &[
        mandatory(61, ElementType::An, 1, 30),
        optional(61, ElementType::An, 1, 30),
    ],
    syntax_notes: &[],
};

const fn entry(layout: &'static SegmentLayout, need: Need, maximum_use: usize) -> Entry {
    Entry {
        layout,
        need,
        maximum_use,
    }
}

pub const fn mandatory(
    reference: u16,
    element_type: ElementType,
    shortest: usize,
    longest: usize,
) -> ElementRow {
    ElementRow {
        reference,
        need: Need::Mandatory,
        element_type,
        shortest,
        longest,
        code_list: None,
    }
}

pub const fn optional(
    reference: u16,
    element_type: ElementType,
    shortest: usize,
    longest: usize,
) -> ElementRow {
    ElementRow {
        need: Need::Optional,
        ..mandatory(reference, element_type, shortest, longest)
    }
}
