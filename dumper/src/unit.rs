//! Decoding a unit: its entries, with the attributes that the import reads.

use std::cell::OnceCell;

use gimli::{AttributeValue, Dwarf, EndianSlice, Reader, RunTimeEndian, Section, Unit, UnitHeader};

pub type Slice<'a> = EndianSlice<'a, RunTimeEndian>;

/// The kinds of an attribute's value.
pub const UNSIGNED: u8 = 1;
pub const FILE_NUMBER: u8 = 2;
pub const STRING: u8 = 3;
pub const UNIT_REFERENCE: u8 = 4;
pub const SECTION_REFERENCE: u8 = 5;
pub const SUPPLEMENTARY_REFERENCE: u8 = 6;
pub const SECTION_OFFSET: u8 = 7;
pub const LINE_OFFSET: u8 = 8;
pub const ADDRESS: u8 = 9;
pub const FAILED: u8 = 10;

const LLVM_STMT_SEQUENCE: gimli::DwAt = gimli::DwAt(0x3e0c);

/// The attributes that the import reads.
const READ: [gimli::DwAt; 12] = [
    gimli::DW_AT_name,
    gimli::DW_AT_linkage_name,
    gimli::DW_AT_MIPS_linkage_name,
    gimli::DW_AT_abstract_origin,
    gimli::DW_AT_specification,
    gimli::DW_AT_decl_file,
    gimli::DW_AT_decl_line,
    gimli::DW_AT_call_file,
    gimli::DW_AT_call_line,
    gimli::DW_AT_call_return_pc,
    gimli::DW_AT_call_origin,
    LLVM_STMT_SEQUENCE,
];

pub enum Value {
    Number(u8, u64),
    Text(Vec<u8>),
    Failed,
}

pub struct Attribute {
    pub name: u16,
    pub value: Value,
}

pub struct Entry {
    pub offset: u64,
    pub depth: u64,
    pub tag: u16,
    /// Whether it has a range, of any form.
    pub has_code: bool,
    pub attributes: Vec<Attribute>,
}

pub struct Decoded<'a> {
    pub unit: Unit<Slice<'a>>,
    pub entries: Vec<Entry>,
}

/// One file's units; each is decoded when it is first asked for.
pub struct Source<'a> {
    pub dwarf: &'a Dwarf<Slice<'a>>,
    headers: Vec<UnitHeader<Slice<'a>>>,
    decoded: Vec<OnceCell<Result<Decoded<'a>, String>>>,
}

impl<'a> Source<'a> {
    pub fn new(dwarf: &'a Dwarf<Slice<'a>>) -> Result<Self, String> {
        let mut headers = Vec::new();
        let mut units = dwarf.units();
        while let Some(header) = units.next().map_err(|error| error.to_string())? {
            headers.push(header);
        }
        let decoded = headers.iter().map(|_| OnceCell::new()).collect();
        Ok(Source {
            dwarf,
            headers,
            decoded,
        })
    }

    pub fn endian(&self) -> RunTimeEndian {
        self.dwarf.debug_addr.reader().endian()
    }

    pub fn len(&self) -> usize {
        self.headers.len()
    }

    /// Where a unit starts in the section, and its length with its header.
    pub fn place(&self, index: usize) -> (u64, u64) {
        let header = &self.headers[index];
        let offset = header
            .offset()
            .as_debug_info_offset()
            .map_or(0, |offset| offset.0);
        (offset as u64, header.length_including_self() as u64)
    }

    /// The unit that holds an offset of the section.
    pub fn containing(&self, offset: u64) -> Option<usize> {
        let after = self.headers.partition_point(|header| {
            let start = header.offset().as_debug_info_offset();
            start.is_some_and(|start| start.0 as u64 <= offset)
        });
        let index = after.checked_sub(1)?;
        let (start, length) = self.place(index);
        (offset - start < length).then_some(index)
    }

    /// A unit's root alone, with nothing below it decoded.
    pub fn root(&self, index: usize) -> gimli::Result<Unit<Slice<'a>>> {
        self.dwarf.unit(self.headers[index])
    }

    pub fn unit(&self, index: usize) -> Result<&Decoded<'a>, String> {
        let decode = || decode(self.dwarf, &self.headers[index]);
        self.decoded[index]
            .get_or_init(decode)
            .as_ref()
            .map_err(String::clone)
    }
}

fn decode<'a>(
    dwarf: &Dwarf<Slice<'a>>,
    header: &UnitHeader<Slice<'a>>,
) -> Result<Decoded<'a>, String> {
    let fault = |error: gimli::Error| format!("not decoded: {error}");
    if !matches!(header.address_size(), 1 | 2 | 4 | 8) {
        return Err(format!(
            "not decoded: addresses of {} bytes",
            header.address_size()
        ));
    }
    let unit = dwarf.unit(*header).map_err(fault)?;
    let mut entries: Vec<Entry> = Vec::new();
    let mut cursor = unit.entries();
    let mut depth = 0;
    while let Some((change, entry)) = cursor.next_dfs().map_err(fault)? {
        depth += change;
        // A sheet has one root, and everything else below it.
        if (depth <= 0) != entries.is_empty() || depth < 0 {
            return Err("not one tree of entries".into());
        }
        let mut attributes = Vec::new();
        let mut has_code = false;
        let mut all = entry.attrs();
        while let Some(attribute) = all.next().map_err(fault)? {
            has_code |= matches!(attribute.name(), gimli::DW_AT_low_pc | gimli::DW_AT_ranges);
            if READ.contains(&attribute.name()) {
                attributes.push(Attribute {
                    name: attribute.name().0,
                    value: value(dwarf, &unit, &attribute),
                });
            }
        }
        entries.push(Entry {
            offset: entry.offset().0 as u64,
            depth: depth as u64,
            tag: entry.tag().0,
            has_code,
            attributes,
        });
    }
    Ok(Decoded { unit, entries })
}

/// What the import would get for an attribute. A value of a class that has no kind counts as
/// failed, since the import passes over both alike, and refuses a name of either.
fn value<'a>(
    dwarf: &Dwarf<Slice<'a>>,
    unit: &Unit<Slice<'a>>,
    attribute: &gimli::Attribute<Slice<'a>>,
) -> Value {
    let value = attribute.value();
    if attribute.name() == gimli::DW_AT_call_return_pc {
        return match dwarf.attr_address(unit, value) {
            Ok(Some(address)) => Value::Number(ADDRESS, address),
            // A failed return address refuses and one of another class is no site, so the
            // second must not be marked failed: any other kind of number says so.
            Ok(None) => Value::Number(UNSIGNED, value.udata_value().unwrap_or(0)),
            Err(_) => Value::Failed,
        };
    }
    match value {
        AttributeValue::FileIndex(number) => Value::Number(FILE_NUMBER, number),
        AttributeValue::UnitRef(offset) => Value::Number(UNIT_REFERENCE, offset.0 as u64),
        AttributeValue::DebugInfoRef(offset) => Value::Number(SECTION_REFERENCE, offset.0 as u64),
        AttributeValue::DebugInfoRefSup(offset) => {
            Value::Number(SUPPLEMENTARY_REFERENCE, offset.0 as u64)
        }
        AttributeValue::SecOffset(offset) => Value::Number(SECTION_OFFSET, offset as u64),
        AttributeValue::DebugLineRef(offset) => Value::Number(LINE_OFFSET, offset.0 as u64),
        AttributeValue::Addr(address) => Value::Number(ADDRESS, address),
        AttributeValue::String(_)
        | AttributeValue::DebugStrRef(_)
        | AttributeValue::DebugStrRefSup(_)
        | AttributeValue::DebugLineStrRef(_)
        | AttributeValue::DebugStrOffsetsIndex(_) => match text(dwarf, unit, value) {
            Some(text) => Value::Text(text.to_vec()),
            None => Value::Failed,
        },
        other => match other.udata_value() {
            Some(number) => Value::Number(UNSIGNED, number),
            None => Value::Failed,
        },
    }
}

/// The bytes of a string, none where it can't be read. A string of a supplementary file that
/// isn't there is empty, as the import takes it.
pub fn text<'a>(
    dwarf: &Dwarf<Slice<'a>>,
    unit: &Unit<Slice<'a>>,
    value: AttributeValue<Slice<'a>>,
) -> Option<&'a [u8]> {
    if matches!(value, AttributeValue::DebugStrRefSup(_)) && dwarf.sup().is_none() {
        return Some(&[]);
    }
    let string = dwarf.attr_string(unit, value).ok()?;
    Some(string.slice())
}
