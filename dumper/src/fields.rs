//! Writing a sheet: fields of a one-byte tag, a two-byte length and a payload.

use crate::dump::Dump;

/// The largest sheet, in bytes.
pub const SHEET_LIMIT: usize = 16_777_216;
/// The largest line program, and the largest list section and address table, in bytes.
pub const PROGRAM_LIMIT: usize = 4_194_304;
pub const FIELD_LIMIT: usize = 65_536;
const UNIT_LIMIT: usize = 256;
const STRING_LIMIT: usize = 6_113;
const REASON_LIMIT: usize = 4_096;
const DEPTH_LIMIT: u64 = 1_024;
const MANY_FIELDS: &str = "more than 65,536 fields";
const MANY_UNITS: &str = "more than 256 units";
const LONG_SHEET: &str = "a sheet of more than 16,777,216 bytes";
/// The limits that a part of a unit may keep though the unit does not.
pub const SIZE_LIMITS: [&str; 3] = [MANY_FIELDS, MANY_UNITS, LONG_SHEET];
/// What work needs besides fields and program.
const WORK_BESIDES: u64 = 32_768;
/// What a byte of the list section needs for each range list of a unit, and how many of these count.
const WORK_OF_LISTS: u64 = 8;
const COUNTED_LISTS: u64 = 256;

pub const UNIT: u8 = 0x10;
pub const DIRECTORY_OF_UNIT: u8 = 0x11;
pub const TEXT: u8 = 0x12;
pub const LINE_HEADER: u8 = 0x13;
pub const DIRECTORY: u8 = 0x14;
pub const FILE: u8 = 0x15;
pub const ROW: u8 = 0x16;
pub const ENTRY: u8 = 0x17;
pub const ATTRIBUTE: u8 = 0x18;
pub const RANGE: u8 = 0x19;
pub const RANGE_FAILURE: u8 = 0x1a;
pub const FILE_ZERO: u8 = 0x1c;
pub const LINE_ENCODING: u8 = 0x1d;
pub const PROGRAM_PART: u8 = 0x1e;
pub const RANGE_LIST: u8 = 0x1f;

/// One value of a payload.
pub enum Part<'a> {
    U8(u8),
    U16(u16),
    U64(u64),
    /// Bytes without a limit of their own.
    Bytes(&'a [u8]),
    /// A string, which has a limit.
    Text(&'a [u8]),
    /// The reason of a range failure, which has another.
    Reason(&'a [u8]),
}

#[derive(Default)]
pub struct Fields {
    pub bytes: Vec<u8>,
    pub fields: usize,
    units: usize,
    /// How many range lists each unit has.
    lists: Vec<u64>,
}

impl Fields {
    /// Adds a field, or says which limit it would pass.
    pub fn field(&mut self, tag: u8, parts: &[Part]) -> Result<(), &'static str> {
        self.fields += 1;
        if self.fields > FIELD_LIMIT {
            return Err(MANY_FIELDS);
        }
        if tag == UNIT {
            self.units += 1;
            self.lists.push(0);
            if self.units > UNIT_LIMIT {
                return Err(MANY_UNITS);
            }
        }
        if let (RANGE_LIST, Some(lists)) = (tag, self.lists.last_mut()) {
            *lists += 1;
        }
        let start = self.bytes.len();
        self.bytes.extend([tag, 0, 0]);
        for part in parts {
            match *part {
                Part::U8(value) => self.bytes.push(value),
                Part::U16(value) => self.bytes.extend(value.to_le_bytes()),
                Part::U64(value) => self.bytes.extend(value.to_le_bytes()),
                Part::Bytes(bytes) => self.bytes.extend(bytes),
                Part::Text(bytes) if bytes.len() > STRING_LIMIT => {
                    return Err("a string of more than 6,113 bytes");
                }
                Part::Reason(bytes) if bytes.len() > REASON_LIMIT => {
                    return Err("a reason of more than 4,096 bytes");
                }
                Part::Text(bytes) | Part::Reason(bytes) => self.bytes.extend(bytes),
            }
        }
        let length = self.bytes.len() - start - 3;
        let length = u16::try_from(length).map_err(|_| "a field of more than 65,535 bytes")?;
        self.bytes[start + 1..start + 3].copy_from_slice(&length.to_le_bytes());
        if self.bytes.len() > SHEET_LIMIT {
            return Err(LONG_SHEET);
        }
        Ok(())
    }

    /// Adds an entry, whose depth has a limit.
    pub fn entry(&mut self, offset: u64, depth: u64, tag: u16) -> Result<(), &'static str> {
        if depth > DEPTH_LIMIT {
            return Err("an entry deeper than 1,024");
        }
        self.field(
            ENTRY,
            &[Part::U64(offset), Part::U16(depth as u16), Part::U16(tag)],
        )
    }
}

/// The work length that an import of a unit needs, or of all where none is given, and no byte more:
/// a byte of the program counts for more where rows are taken from it, which is so of all units
/// with a program or of none.
pub fn work_length(dump: &Dump, unit: Option<usize>) -> u64 {
    let fields = (dump.main.fields + dump.supplementary.fields) as u64;
    let bytes = if dump.encoded { 64 } else { 4 };
    let imported = unit.map_or(&dump.main.lists[..], |unit| &dump.main.lists[unit..=unit]);
    let lists = imported
        .iter()
        .max()
        .map_or(0, |&lists| lists.min(COUNTED_LISTS));
    let of_lists = WORK_OF_LISTS * dump.lists.len() as u64 * lists;
    64 * fields + bytes * dump.program.len() as u64 + of_lists + WORK_BESIDES
}
