//! The fields of a tray, or of an input: each a tag of one byte, a length of two and a payload. Numbers are little-endian.

/// Of a main input: a unit.
pub const UNIT: u8 = 0x10;
/// Of a main input: a unit's rows come from its line program.
pub const LINE_ENCODING: u8 = 0x1d;
/// Of a main input: an entry's ranges are in a list.
pub const RANGE_LIST: u8 = 0x1f;
/// A file: the length of its directory (2 bytes), the directory, the basename.
pub const FILE: u8 = 0x40;
/// A function: start and end (8 bytes each), name. What follows up to the next one belongs to it.
pub const FUNCTION: u8 = 0x41;
/// A row: address (8 bytes), file and line (4 each), column (2).
pub const ROW: u8 = 0x42;
/// A node of the tree of inlined calls: depth (2 bytes), call file and call line (4 each), name.
pub const NODE: u8 = 0x43;
/// A range of the node before it: start and end (8 bytes each).
pub const RANGE: u8 = 0x44;
/// A symbol: start and size (8 bytes each), name.
pub const SYMBOL: u8 = 0x50;

const HEAD: usize = 3;

/// A field, and where in its tray it begins.
#[derive(Clone, Copy, Debug, Eq, PartialEq)]
pub struct Field<'a> {
    pub place: usize,
    pub tag: u8,
    pub payload: &'a [u8],
}

impl<'a> Field<'a> {
    /// The field that begins at a place of a tray; none where the tray has no whole field there.
    pub fn at(tray: &'a [u8], place: usize) -> Option<Self> {
        let [tag, low, high, after @ ..] = tray.get(place..)? else { return None };
        let payload = after.get(..usize::from(u16::from_le_bytes([*low, *high])))?;
        Some(Self { place, tag: *tag, payload })
    }

    /// The place behind it.
    pub fn end(&self) -> usize {
        self.place + HEAD + self.payload.len()
    }

    /// A number of its payload; bytes that the payload does not have count as 0.
    pub fn number(&self, at: usize, size: usize) -> u64 {
        (at..at + size).rev().fold(0, |value, place| value << 8 | u64::from(self.payload.get(place).copied().unwrap_or(0)))
    }

    /// The rest of its payload, from a place on.
    pub fn text(&self, at: usize) -> &'a [u8] {
        self.payload.get(at..).unwrap_or(&[])
    }
}

/// The fields of a tray, one after the other. It ends at the first that is cut off.
#[derive(Clone, Debug)]
pub struct Fields<'a> {
    tray: &'a [u8],
    place: usize,
}

impl<'a> Fields<'a> {
    pub fn new(tray: &'a [u8]) -> Self {
        Self::from(tray, 0)
    }

    /// Those from a place on.
    pub fn from(tray: &'a [u8], place: usize) -> Self {
        Self { tray, place }
    }

    /// The place behind the last field that was given.
    pub fn place(&self) -> usize {
        self.place
    }
}

impl<'a> Iterator for Fields<'a> {
    type Item = Field<'a>;

    fn next(&mut self) -> Option<Field<'a>> {
        let field = Field::at(self.tray, self.place)?;
        self.place = field.end();
        Some(field)
    }
}
