//! Bytes as segments that a test can change.

/// Each segment as its id and its elements.
pub type Segments = Vec<Vec<Vec<u8>>>;

pub fn cut(bytes: &[u8], separator: u8, terminator: u8) -> Segments {
    let fields = |segment: &[u8]| {
        let fields = segment.split(|&byte| byte == separator);
        fields.map(<[u8]>::to_vec).collect()
    };
    bytes
        .split(|&byte| byte == terminator)
        .map(fields)
        .collect()
}

pub fn joined(segments: &Segments, separator: u8, terminator: u8) -> Vec<u8> {
    let segments: Vec<Vec<u8>> = segments
        .iter()
        .map(|segment| segment.join(&separator))
        .collect();
    segments.join(&terminator)
}

pub fn number(value: usize) -> Vec<u8> {
    value.to_string().into_bytes()
}
