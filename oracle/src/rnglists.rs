//! Request E9: the ranges of a list in the form of the Standard's 2.17.3 and 7.25, written from its words and from the request's. Numbers have 128 bits, so
//! nothing wraps. It shares nothing with the definitions that are proved.

use crate::stand_in::gimli::Range;

const CUT_OPERAND: u8 = 7;
const OVERFLOWING: u8 = 10;
const OVERLONG: u8 = 11;
const CUT_LIST: u8 = 23;
const NO_ADDRESS: u8 = 24;
const WIDE_ADDRESS: u8 = 25;

/// Kinds of list entries (7.25).
pub const END_OF_LIST: u8 = 0;
pub const BASE_ADDRESSX: u8 = 1;
pub const STARTX_ENDX: u8 = 2;
pub const STARTX_LENGTH: u8 = 3;
pub const OFFSET_PAIR: u8 = 4;
pub const BASE_ADDRESS: u8 = 5;
pub const START_END: u8 = 6;
pub const START_LENGTH: u8 = 7;

/// Field 1f: where an entry's list begins in the section, the unit's base address, where its addresses begin in the table, how many bytes each has.
#[derive(Clone, Copy, Debug, Eq, PartialEq)]
pub struct RangeList {
    pub offset: u64,
    pub base: u64,
    pub addresses: u64,
    pub size: u8,
}

/// What is lent: the list section and the address table.
#[derive(Clone, Copy)]
pub struct Sections<'s> {
    pub lists: &'s [u8],
    pub addresses: &'s [u8],
}

/// A list entry that was met.
#[derive(Clone, Copy, Debug)]
pub struct Met {
    /// Its kind; none where the section ends before it.
    pub kind: Option<u8>,
    /// How far it was read.
    pub end: usize,
    /// The base address in force before it.
    pub base: u128,
    /// A range and its tombstone flag.
    pub range: Option<(Range, bool)>,
    /// 0 if it has none.
    pub fault: u8,
}

/// A list that is being read.
#[derive(Clone, Debug)]
pub struct Cursor {
    list: RangeList,
    at: usize,
    base: u128,
    ended: bool,
}

impl Cursor {
    pub fn new(list: RangeList) -> Self {
        // A place past the section's end is cut all the same.
        let at = usize::try_from(list.offset).unwrap_or(usize::MAX);
        Self { list, at, base: u128::from(list.base), ended: false }
    }

    /// The next range and its tombstone flag, none at the list's end, or the fault.
    pub fn next(&mut self, sections: Sections<'_>) -> Result<Option<(Range, bool)>, u8> {
        while !self.ended {
            let met = self.step(sections);
            match (met.fault, met.range) {
                (0, Some(range)) => return Ok(Some(range)),
                (0, None) => {}
                (fault, _) => return Err(fault),
            }
        }
        Ok(None)
    }

    pub fn is_ended(&self) -> bool {
        self.ended
    }

    /// The next entry of a list that has not ended.
    pub fn step(&mut self, sections: Sections<'_>) -> Met {
        let (base, kind) = (self.base, sections.lists.get(self.at).copied());
        let entry = self.entry(sections);
        Met { kind, end: self.at, base, range: entry.unwrap_or(None), fault: entry.err().unwrap_or(0) }
    }

    fn entry(&mut self, sections: Sections<'_>) -> Result<Option<(Range, bool)>, u8> {
        let address = |index: u128| address(sections.addresses, self.list, index);
        let mut reader = Reader { bytes: sections.lists, at: self.at, size: usize::from(self.list.size) };
        let kind = reader.byte();
        // All operands come first: "LEB128 operands keep 7, 10 and 11, before 24".
        let operands = kind.and_then(|kind| reader.operands(kind).map(|operands| (kind, operands)));
        self.at = reader.at;
        let (kind, (first, second)) = operands?;
        let (start, end) = match kind {
            END_OF_LIST => {
                self.ended = true;
                return Ok(None);
            }
            BASE_ADDRESSX => {
                self.base = address(first)?;
                return Ok(None);
            }
            BASE_ADDRESS => {
                self.base = first;
                return Ok(None);
            }
            STARTX_ENDX => (address(first)?, address(second)?),
            STARTX_LENGTH => {
                let start = address(first)?;
                (start, start + second)
            }
            OFFSET_PAIR if self.base == self.all_ones() => (self.base, self.base),
            OFFSET_PAIR => (self.base + first, self.base + second),
            START_END => (first, second),
            _ => (first, first + second),
        };
        self.range(start, end).map(Some)
    }

    /// The largest address.
    fn all_ones(&self) -> u128 {
        (1 << (8 * u32::from(self.list.size))) - 1
    }

    /// "Where a start or an offset pair's base is all ones in that size, both ends are, with tombstone flag 1 and no 25".
    fn range(&self, start: u128, end: u128) -> Result<(Range, bool), u8> {
        let largest = self.all_ones();
        let dead = start == largest;
        let end = if dead { largest } else { end };
        if start > largest || end > largest {
            return Err(WIDE_ADDRESS);
        }
        Ok((Range { begin: start as u64, end: end as u64 }, dead))
    }
}

/// "Index past the address table": the address is not whole in it.
fn address(table: &[u8], list: RangeList, index: u128) -> Result<u128, u8> {
    let size = u128::from(list.size);
    let start = u128::from(list.addresses) + index * size;
    if start + size > table.len() as u128 {
        return Err(NO_ADDRESS);
    }
    Ok(number(&table[start as usize..(start + size) as usize]))
}

struct Reader<'s> {
    bytes: &'s [u8],
    at: usize,
    size: usize,
}

impl Reader<'_> {
    /// "List cut outside a LEB128 operand".
    fn byte(&mut self) -> Result<u8, u8> {
        let byte = self.bytes.get(self.at).copied().ok_or(CUT_LIST)?;
        self.at += 1;
        Ok(byte)
    }

    fn address(&mut self) -> Result<u128, u8> {
        let rest = &self.bytes[self.at..];
        let bytes = rest.get(..self.size).ok_or(CUT_LIST)?;
        self.at += self.size;
        Ok(number(bytes))
    }

    /// An unsigned LEB128 number (7.6), ten bytes at most, the tenth of which has low seven bits 0 or 1.
    fn unsigned(&mut self) -> Result<u128, u8> {
        let start = self.at;
        for place in 0.. {
            let byte = self.byte().map_err(|_| CUT_OPERAND)?;
            if place == 9 && byte & 0x7f > 1 {
                return Err(OVERFLOWING);
            }
            if byte & 0x80 == 0 {
                break;
            }
            if place == 9 {
                return Err(OVERLONG);
            }
        }
        Ok(self.bytes[start..self.at].iter().rev().fold(0, |value, byte| value << 7 | u128::from(byte & 0x7f)))
    }

    /// The operands of a kind (2.17.3), 0 for one that it does not have.
    fn operands(&mut self, kind: u8) -> Result<(u128, u128), u8> {
        match kind {
            END_OF_LIST => Ok((0, 0)),
            BASE_ADDRESSX => Ok((self.unsigned()?, 0)),
            STARTX_ENDX | STARTX_LENGTH | OFFSET_PAIR => Ok((self.unsigned()?, self.unsigned()?)),
            BASE_ADDRESS => Ok((self.address()?, 0)),
            START_END => Ok((self.address()?, self.address()?)),
            START_LENGTH => Ok((self.address()?, self.unsigned()?)),
            // "Or of unknown kind".
            _ => Err(CUT_LIST),
        }
    }
}

/// The bytes as a number, the first one lowest.
fn number(bytes: &[u8]) -> u128 {
    bytes.iter().rev().fold(0, |value, byte| value << 8 | u128::from(*byte))
}
