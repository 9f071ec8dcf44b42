//! A response with its 997s, taken apart.

/// A segment as its id, then its elements.
pub type Segment<'a> = Vec<&'a [u8]>;

/// Two responses of the same delimiters and the same segments have the same
/// bytes.
pub struct Response<'a> {
    /// The element separator and the segment terminator.
    pub delimiters: [u8; 2],
    /// ISA and GS.
    pub opening: Vec<Segment<'a>>,
    pub acknowledgments: Vec<Acknowledgment<'a>>,
    /// GE and IEA.
    pub closing: Vec<Segment<'a>>,
}

/// One 997.
#[derive(Debug, Clone, PartialEq, Eq)]
pub struct Acknowledgment<'a> {
    /// ST and AK1.
    pub opening: [Segment<'a>; 2],
    /// AK2 to AK5, for each set.
    pub blocks: Vec<Vec<Segment<'a>>>,
    pub ak9: Segment<'a>,
    pub se: Segment<'a>,
}

impl<'a> Response<'a> {
    /// Nothing where the segments are not those of 997s in their order.
    pub fn cut(bytes: &'a [u8]) -> Option<Self> {
        let delimiters @ [separator, terminator] = [*bytes.get(3)?, *bytes.get(105)?];
        let segments: Vec<Segment> = bytes
            .strip_suffix(&[terminator])?
            .split(|&byte| byte == terminator)
            .map(|segment| segment.split(|&byte| byte == separator).collect())
            .collect();
        let [isa, gs, acknowledgments @ .., ge, iea] = segments.as_slice() else {
            return None;
        };
        let ids = [isa, gs, ge, iea].map(|segment| segment[0]);
        if ids != ["ISA", "GS", "GE", "IEA"].map(str::as_bytes) {
            return None;
        }
        let acknowledgments = acknowledgments
            .chunk_by(|_, next| next[0] != b"ST")
            .map(Acknowledgment::cut)
            .collect::<Option<Vec<_>>>()?;
        Some(Response {
            delimiters,
            opening: [isa, gs].map(Vec::clone).to_vec(),
            acknowledgments,
            closing: [ge, iea].map(Vec::clone).to_vec(),
        })
    }
}

impl<'a> Acknowledgment<'a> {
    /// Nothing where the segments are not those of one 997 in their order.
    fn cut(segments: &[Segment<'a>]) -> Option<Self> {
        let [st, ak1, blocks @ .., ak9, se] = segments else {
            return None;
        };
        let ids = [st, ak1, ak9, se].map(|segment| segment[0]);
        let in_order = ids == ["ST", "AK1", "AK9", "SE"].map(str::as_bytes);
        let blocks: Vec<Vec<Segment>> = blocks
            .chunk_by(|_, next| next[0] != b"AK2")
            .map(<[Segment]>::to_vec)
            .collect();
        let whole =
            |block: &Vec<Segment>| block[0][0] == b"AK2" && block[block.len() - 1][0] == b"AK5";
        let filled = st.len() == 3 && ak9.len() > 4 && se.len() == 3;
        (in_order && blocks.iter().all(whole) && filled).then(|| Acknowledgment {
            opening: [st, ak1].map(Vec::clone),
            blocks,
            ak9: ak9.clone(),
            se: se.clone(),
        })
    }

    /// The same with this number in ST02 and SE02.
    pub fn numbered<'b>(&self, number: &'b [u8]) -> Acknowledgment<'b>
    where
        'a: 'b,
    {
        let mut other: Acknowledgment<'b> = self.clone();
        other.opening[0][2] = number;
        other.se[2] = number;
        other
    }

    /// How many blocks accept their set.
    pub fn accepted(&self) -> usize {
        let accepts = |block: &&Vec<Segment>| block[block.len() - 1][1..] == [b"A"];
        self.blocks.iter().filter(accepts).count()
    }

    /// The number of segments from ST to SE.
    pub fn segment_count(&self) -> usize {
        let beside_the_blocks = ["ST", "AK1", "AK9", "SE"].len();
        self.blocks.iter().map(Vec::len).sum::<usize>() + beside_the_blocks
    }
}
