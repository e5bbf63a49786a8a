//! The grammar of an input ("sheet" in document 01) and refusals 2 and 3.

use std::cell::{Cell, OnceCell};
use std::rc::Rc;

use crate::machine::LineEncoding;
use crate::payload::{MISSHAPEN, Payload};
use crate::rnglists::RangeList;
use crate::stand_in::gimli::{AttributeValue, DwAt, DwTag, EntryData, FileEntry, LineProgramHeader, LineRow, RowKind, Slice, UnitData};

const PAST_LIMIT: u8 = 3;

const FIELD_LIMIT: usize = 65_536;
const UNIT_LIMIT: usize = 256;
/// Of every string (E12); document 01's number stays that of a reason.
pub const STRING_LIMIT: usize = 6_113;
pub const REASON_LIMIT: usize = 4_096;
const DEPTH_LIMIT: u64 = 1_024;
/// Of the units whose entries may have a range list (E9).
const LIST_VERSION: u16 = 5;

pub struct Input<'a> {
    pub fields: usize,
    pub units: Vec<Rc<UnitData<Slice<'a>>>>,
}

/// The units of an input, or the refusal that its first bad field gives. A unit's program is the one that is lent, or its part of it.
pub fn parse<'a>(bytes: &'a [u8], program: &'a [u8], supplementary: bool) -> Result<Input<'a>, u8> {
    let mut parser = Parser { units: Vec::new(), program, supplementary, previous: 0 };
    let (mut rest, mut fields) = (bytes, 0);
    while !rest.is_empty() {
        let (tag, payload, after) = field(rest).ok_or(MISSHAPEN)?;
        let within = parser.take(tag, Payload(payload))?;
        if !within || fields == FIELD_LIMIT {
            return Err(PAST_LIMIT);
        }
        (rest, parser.previous, fields) = (after, tag, fields + 1);
    }
    Ok(Input { fields, units: parser.units.into_iter().map(Rc::new).collect() })
}

/// A field's tag and payload, and what follows it; none if it is cut off.
pub fn field(bytes: &[u8]) -> Option<(u8, &[u8], &[u8])> {
    let (&[tag, low, high], rest) = bytes.split_first_chunk()?;
    let (payload, rest) = rest.split_at_checked(usize::from(u16::from_le_bytes([low, high])))?;
    Some((tag, payload, rest))
}

/// The tags that may stand after a tag; 0 is the start.
fn followers(tag: u8) -> &'static [u8] {
    match tag {
        0x10 => &[0x10, 0x11, 0x12, 0x13, 0x17],
        0x11 | 0x12 => &[0x10, 0x12, 0x13, 0x17],
        // "A new field, 1d hex, after the line header" (E8), and "a field 1e hex after a line header (and its 1d)" (E11): behind it, before all else.
        0x13 => &[0x10, 0x1d, 0x1e, 0x14, 0x1c, 0x15, 0x16, 0x17],
        0x1d => &[0x10, 0x1e, 0x14, 0x1c, 0x15, 0x16, 0x17],
        0x1e | 0x14 => &[0x10, 0x14, 0x1c, 0x15, 0x16, 0x17],
        0x1c | 0x15 => &[0x10, 0x15, 0x16, 0x17],
        0x16 => &[0x10, 0x16, 0x17],
        // "In place of 19 and 1a" (E9).
        0x17 | 0x18 => &[0x10, 0x17, 0x18, 0x19, 0x1a, 0x1f],
        0x19 => &[0x10, 0x17, 0x19, 0x1a],
        0x1a | 0x1f => &[0x10, 0x17],
        _ => &[0x10],
    }
}

struct Parser<'a> {
    units: Vec<UnitData<Slice<'a>>>,
    program: &'a [u8],
    supplementary: bool,
    /// The tag before.
    previous: u8,
}

impl<'a> Parser<'a> {
    /// Checks a field's place and shape and takes it in; false where it is past a limit.
    fn take(&mut self, tag: u8, mut payload: Payload<'a>) -> Result<bool, u8> {
        if !followers(self.previous).contains(&tag) {
            return Err(MISSHAPEN);
        }
        // The order has it that a unit comes first, a header before its files, an entry before its attributes.
        let within = match tag {
            0x10 => self.unit(&mut payload)?,
            0x11..=0x13 | 0x16 => self.of_unit(tag, &mut payload)?,
            0x14 | 0x15 | 0x1c => self.file(tag, &mut payload)?,
            0x1d => self.line_encoding(&mut payload)?,
            0x1e => self.part(&mut payload)?,
            0x17 => self.entry(&mut payload)?,
            0x1f => self.list(&mut payload)?,
            _ => self.of_entry(tag, &mut payload)?,
        };
        if payload.0.is_empty() { Ok(within) } else { Err(MISSHAPEN) }
    }

    fn last(&mut self) -> Result<&mut UnitData<Slice<'a>>, u8> {
        self.units.last_mut().ok_or(MISSHAPEN)
    }

    fn unit(&mut self, payload: &mut Payload<'a>) -> Result<bool, u8> {
        let (offset, length, encoding) = (payload.offset()?, payload.offset()?, payload.encoding()?);
        // The unit before it was found to end within 64 bits.
        let least = self.units.last().map_or(0, |unit| unit.offset + unit.length);
        if offset.checked_add(length).is_none() || offset < least {
            return Err(MISSHAPEN);
        }
        self.units.push(UnitData {
            supplementary: self.supplementary,
            number: self.units.len(),
            offset,
            length,
            format: encoding.format,
            version: encoding.version,
            directory: None,
            text: Vec::new(),
            lines: None,
            given: Vec::new(),
            encoding: None,
            ran: OnceCell::new(),
            entries: Vec::new(),
            lists: 0,
            tombstone: Cell::new(false),
        });
        Ok(self.units.len() <= UNIT_LIMIT)
    }

    fn of_unit(&mut self, tag: u8, payload: &mut Payload<'a>) -> Result<bool, u8> {
        let program = Slice(self.program);
        let unit = self.last()?;
        match tag {
            0x11 => {
                let directory = payload.rest();
                unit.directory = Some(directory);
                return Ok(short(directory));
            }
            0x12 => unit.text.push(payload.range()?),
            0x13 => {
                unit.lines = Some(LineProgramHeader {
                    offset: payload.offset()?,
                    length: payload.offset()?,
                    encoding: payload.encoding()?,
                    opcode_base: payload.byte(0, 255)?,
                    opcode_lengths: payload.rest(),
                    program,
                    directories: Vec::new(),
                    file_zero: None,
                    files: Vec::new(),
                });
            }
            // "With it present, the unit's row fields are misshapen" (E8).
            _ if unit.encoding.is_some() => return Err(MISSHAPEN),
            _ => {
                let (address, file, line) = (payload.number(8)?, payload.number(8)?, payload.number(8)?);
                let column = payload.number(2)? as u16;
                let kind = [RowKind::Plain, RowKind::End, RowKind::Failed][usize::from(payload.byte(0, 2)?)];
                unit.given.push(LineRow { address, file, line, column, kind });
            }
        }
        Ok(true)
    }

    /// E8: "minimum instruction length (1 byte), operations per instruction (1), default statement flag (1, 0 or 1), line base (1, signed) and
    /// line range (1)".
    fn line_encoding(&mut self, payload: &mut Payload<'a>) -> Result<bool, u8> {
        self.last()?.encoding = Some(LineEncoding {
            minimum_length: payload.byte(0, 255)?,
            operations: payload.byte(0, 255)?,
            default_is_stmt: payload.flag()?,
            line_base: payload.byte(0, 255)? as i8,
            line_range: payload.byte(0, 255)?,
        });
        Ok(true)
    }

    /// E11: the field "names the unit's part of the lent program by start and length; a part past the program is misshapen". The two are
    /// added as numbers without a limit.
    fn part(&mut self, payload: &mut Payload<'a>) -> Result<bool, u8> {
        let (start, length) = (payload.number(8)?, payload.number(8)?);
        let (end, program) = (u128::from(start) + u128::from(length), self.program);
        if end > program.len() as u128 {
            return Err(MISSHAPEN);
        }
        let header = self.last()?.lines.as_mut().ok_or(MISSHAPEN)?;
        header.program = Slice(&program[start as usize..end as usize]);
        Ok(true)
    }

    /// A directory, a file, or file 0.
    fn file(&mut self, tag: u8, payload: &mut Payload<'a>) -> Result<bool, u8> {
        let header = self.last()?.lines.as_mut().ok_or(MISSHAPEN)?;
        let failed = payload.flag()?;
        let directory = if tag == 0x14 { 0 } else { payload.number(8)? };
        let text = payload.rest();
        let path = if failed { AttributeValue::Failed } else { AttributeValue::String(text) };
        match tag {
            0x14 => header.directories.push(path),
            0x15 => header.files.push(FileEntry { directory, path }),
            _ => header.file_zero = Some(FileEntry { directory, path }),
        }
        Ok(short(text))
    }

    /// The first entry has depth 0, later ones 1 to the previous plus 1; offsets rise and stay below the length.
    fn entry(&mut self, payload: &mut Payload<'a>) -> Result<bool, u8> {
        let unit = self.last()?;
        let (offset, depth, tag) = (payload.offset()?, payload.number(2)?, DwTag(payload.number(2)? as u16));
        let fits = match unit.entries.last() {
            None => depth == 0,
            Some(last) => last.offset < offset && (1..=last.depth as u64 + 1).contains(&depth),
        };
        if !fits || offset >= unit.length {
            return Err(MISSHAPEN);
        }
        let (attributes, ranges) = (Vec::new(), Vec::new());
        unit.entries.push(EntryData { offset, depth: depth as isize, tag, attributes, ranges, failure: None, list: None });
        Ok(depth <= DEPTH_LIMIT)
    }

    /// E9: "list offset, unit base address, byte place of the unit's addresses in the table, address size 4 or 8 in 1 byte", "in version 5 units
    /// (1f is misshapen in others)".
    fn list(&mut self, payload: &mut Payload<'a>) -> Result<bool, u8> {
        let (offset, base, addresses) = (payload.number(8)?, payload.number(8)?, payload.number(8)?);
        let size = payload.byte(4, 8)?;
        let unit = self.last()?;
        if !matches!(size, 4 | 8) || unit.version != LIST_VERSION {
            return Err(MISSHAPEN);
        }
        unit.lists += 1;
        unit.entries.last_mut().ok_or(MISSHAPEN)?.list = Some(RangeList { offset, base, addresses, size });
        Ok(true)
    }

    fn of_entry(&mut self, tag: u8, payload: &mut Payload<'a>) -> Result<bool, u8> {
        let previous = self.previous;
        let entry = self.last()?.entries.last_mut().ok_or(MISSHAPEN)?;
        match tag {
            0x18 => {
                let (name, value) = (DwAt(payload.number(2)? as u16), payload.attribute()?);
                let within = !matches!(value, AttributeValue::String(text) if !short(text));
                entry.attributes.push((name, value));
                Ok(within)
            }
            0x19 => {
                entry.ranges.push((payload.range()?, payload.flag()?));
                Ok(true)
            }
            _ => {
                let (after, reason) = (payload.flag()?, payload.rest());
                entry.failure = Some((after, reason));
                if after || previous != 0x19 { Ok(reason.0.len() <= REASON_LIMIT) } else { Err(MISSHAPEN) }
            }
        }
    }
}

fn short(text: Slice<'_>) -> bool {
    text.0.len() <= STRING_LIMIT
}
