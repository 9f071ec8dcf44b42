//! Cutting bytes into segments and segments into elements.

use crate::delimiters::Delimiters;

#[derive(Debug, Clone, PartialEq, Eq)]
pub struct Segment<'a> {
    pub id: &'a [u8],
    pub elements: Vec<&'a [u8]>,
}

impl<'a> Segment<'a> {
    fn cut(bytes: &'a [u8], delimiters: &Delimiters) -> Self {
        let mut pieces = bytes.split(|&byte| byte == delimiters.element);
        Segment {
            id: pieces.next().unwrap_or_default(),
            elements: pieces.collect(),
        }
    }

    /// The element at `place`, counted from 1. An absent one is like an empty one.
    pub fn element(&self, place: usize) -> &'a [u8] {
        self.elements.get(place - 1).copied().unwrap_or_default()
    }
}

/// Cuts bytes of which the last is a terminator, or no bytes at all.
pub fn cut_segments<'a>(bytes: &'a [u8], delimiters: &Delimiters) -> Vec<Segment<'a>> {
    let mut segments: Vec<Segment> = bytes
        .split(|&byte| byte == delimiters.terminator)
        .map(|segment| Segment::cut(segment, delimiters))
        .collect();
    // Nothing stands behind the last terminator.
    segments.pop();
    segments
}

#[cfg(test)]
mod tests {
    use super::*;

    const DELIMITERS: Delimiters = Delimiters {
        element: b'*',
        component: b'>',
        terminator: b'~',
        repetition: None,
    };

    #[test]
    fn no_bytes_hold_no_segment() {
        assert_eq!(cut_segments(b"", &DELIMITERS), []);
    }

    #[test]
    fn two_terminators_hold_an_empty_segment_between() {
        let segments = cut_segments(b"B1*AB~~SE~", &DELIMITERS);
        let ids: Vec<&[u8]> = segments.iter().map(|segment| segment.id).collect();
        assert_eq!(ids, [b"B1".as_slice(), b"", b"SE"]);
    }

    #[test]
    fn each_separator_starts_an_element() {
        let segments = cut_segments(b"B1*ABCD****~", &DELIMITERS);
        assert_eq!(
            segments[0].elements,
            [b"ABCD".as_slice(), b"", b"", b"", b""]
        );
        assert_eq!(segments[0].element(1), b"ABCD");
        assert_eq!(segments[0].element(5), b"");
        assert_eq!(segments[0].element(6), b"");
    }

    #[test]
    fn a_line_break_is_an_ordinary_byte() {
        let segments = cut_segments(b"B1*AB\n~\nSE~", &DELIMITERS);
        assert_eq!(segments[0].element(1), b"AB\n");
        assert_eq!(segments[1].id, b"\nSE");
    }
}
