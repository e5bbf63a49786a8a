//! The fields of a unit in a sheet: its lines, its entries, their attributes and ranges.

use gimli::{LineProgramHeader, UnitOffset};

use crate::dump::{INLINED, SUBPROGRAM};
use crate::fields::{self, Fields, Part};
use crate::lines::Lines;
use crate::lists::Lists;
use crate::parts::{self, Part as UnitPart};
use crate::unit::{self, Decoded, Entry, Slice, Source, Value};

/// What only a unit that is imported has, beside the ranges of its entries: the import reads
/// them of no other.
#[derive(Clone, Copy)]
pub struct Own<'a, 'b> {
    pub text: &'b [(u64, u64)],
    pub lines: Option<&'b Lines<'a>>,
    /// Start and length of its part of the program, where that is the program of several units.
    pub program: Option<(u64, u64)>,
    /// Its range lists, where ranges are left to them.
    pub lists: Option<&'b Lists<'a>>,
    /// The subprograms that are written, where not all are.
    pub part: Option<&'b UnitPart>,
}

pub fn write<'a>(
    fields: &mut Fields,
    source: &Source<'a>,
    index: usize,
    own: Option<Own<'a, '_>>,
    lean: bool,
    readable: impl Fn(&Entry) -> bool,
) -> Result<(), String> {
    let decoded = source.unit(index)?;
    let unit = &decoded.unit;
    let (offset, length) = source.place(index);
    let encoding = unit.encoding();
    fields.field(
        fields::UNIT,
        &[
            Part::U64(offset),
            Part::U64(length),
            Part::U8(encoding.version as u8),
            Part::U8(encoding.format.word_size()),
        ],
    )?;
    if let Some(directory) = &unit.comp_dir {
        fields.field(fields::DIRECTORY_OF_UNIT, &[Part::Text(directory.slice())])?;
    }
    for (start, end) in own.map_or(&[][..], |own| own.text) {
        fields.field(fields::TEXT, &[Part::U64(*start), Part::U64(*end)])?;
    }
    let ran = own.and_then(|own| own.lines).map(|lines| &lines.header);
    let given = unit.line_program.as_ref().map(|program| program.header());
    if let Some(header) = ran.or(given) {
        write_lines(fields, source, decoded, header, own)?;
    }
    let kept = lean.then(|| parts::kept(&decoded.entries, &readable));
    let part = own.and_then(|own| own.part);
    for (place, entry) in decoded.entries.iter().enumerate() {
        if kept.as_ref().is_some_and(|kept| !kept[place]) {
            continue;
        }
        fields.entry(entry.offset, entry.depth, entry.tag)?;
        if readable(entry) {
            write_attributes(fields, entry)?;
        }
        if own.is_some() && is_ranged(entry) && part.map_or(true, |part| part.owns(place)) {
            let lists = own.and_then(|own| own.lists);
            match lists.and_then(|lists| lists.field(source, decoded, entry.offset)) {
                Some(parts) => fields.field(fields::RANGE_LIST, &parts)?,
                None => write_ranges(fields, source, decoded, entry)?,
            }
        }
    }
    Ok(())
}

fn write_lines<'a>(
    fields: &mut Fields,
    source: &Source<'a>,
    decoded: &Decoded<'a>,
    header: &LineProgramHeader<Slice<'a>>,
    own: Option<Own<'a, '_>>,
) -> Result<(), String> {
    fields.field(
        fields::LINE_HEADER,
        &[
            Part::U64(header.offset().0 as u64),
            Part::U64(header.header_length() as u64),
            Part::U8(header.version() as u8),
            Part::U8(header.format().word_size()),
            Part::U8(header.opcode_base()),
            Part::Bytes(header.standard_opcode_lengths().slice()),
        ],
    )?;
    let lines = own.and_then(|own| own.lines);
    if let Some(encoding) = lines.and_then(|lines| lines.encoding) {
        fields.field(fields::LINE_ENCODING, &[Part::Bytes(&encoding)])?;
    }
    if let Some((start, length)) = own.and_then(|own| own.program) {
        let parts = [Part::U64(start), Part::U64(length)];
        fields.field(fields::PROGRAM_PART, &parts)?;
    }
    let text = |value| unit::text(source.dwarf, &decoded.unit, value);
    for directory in header.include_directories() {
        let path = text(*directory);
        let parts = [
            Part::U8(path.is_none().into()),
            Part::Text(path.unwrap_or_default()),
        ];
        fields.field(fields::DIRECTORY, &parts)?;
    }
    let mut file = |tag, file: &gimli::FileEntry<Slice<'a>>| {
        let path = text(file.path_name());
        fields.field(
            tag,
            &[
                Part::U8(path.is_none().into()),
                Part::U64(file.directory_index()),
                Part::Text(path.unwrap_or_default()),
            ],
        )
    };
    if header.version() < 5 {
        if let Some(zero) = header.file(0) {
            file(fields::FILE_ZERO, zero)?;
        }
    }
    for each in header.file_names() {
        file(fields::FILE, each)?;
    }
    let rows = lines.map_or(&[][..], |lines| &lines.rows);
    let part = own.and_then(|own| own.part);
    let kept = part.map(|part| part.keeps(rows, header.version()));
    for (place, row) in rows.iter().enumerate() {
        if kept.as_ref().is_some_and(|kept| !kept[place]) {
            continue;
        }
        fields.field(
            fields::ROW,
            &[
                Part::U64(row.address),
                Part::U64(row.file),
                Part::U64(row.line),
                Part::U16(row.column),
                Part::U8(row.kind),
            ],
        )?;
    }
    Ok(())
}

/// Whether ranges of an entry are written.
pub fn is_ranged(entry: &Entry) -> bool {
    matches!(entry.tag, SUBPROGRAM | INLINED)
}

fn write_attributes(fields: &mut Fields, entry: &Entry) -> Result<(), String> {
    for attribute in &entry.attributes {
        let (kind, value) = match &attribute.value {
            Value::Number(kind, number) => (*kind, Part::U64(*number)),
            Value::Text(text) => (unit::STRING, Part::Text(text)),
            Value::Failed => (unit::FAILED, Part::Bytes(&[])),
        };
        fields.field(
            fields::ATTRIBUTE,
            &[Part::U16(attribute.name), Part::U8(kind), value],
        )?;
    }
    Ok(())
}

fn write_ranges(
    fields: &mut Fields,
    source: &Source,
    decoded: &Decoded,
    entry: &Entry,
) -> Result<(), String> {
    let unit = &decoded.unit;
    let die = unit.entry(UnitOffset(entry.offset as usize));
    let die = die.map_err(|error| format!("not decoded: {error}"))?;
    let failure = |stage, error: gimli::Error, fields: &mut Fields| {
        let reason = error.to_string();
        let parts = [Part::U8(stage), Part::Reason(reason.as_bytes())];
        fields
            .field(fields::RANGE_FAILURE, &parts)
            .map_err(String::from)
    };
    let mut ranges = match source.dwarf.die_ranges(unit, &die) {
        Ok(ranges) => ranges,
        Err(error) => return failure(0, error, fields),
    };
    // A tombstone is one of the two largest addresses of the unit's address size.
    let tombstone = (u64::MAX >> (64 - 8 * u32::from(unit.encoding().address_size))) - 1;
    loop {
        match ranges.next() {
            Ok(Some(range)) => fields.field(
                fields::RANGE,
                &[
                    Part::U64(range.begin),
                    Part::U64(range.end),
                    Part::U8((range.begin >= tombstone).into()),
                ],
            )?,
            Ok(None) => return Ok(()),
            Err(error) => return failure(1, error, fields),
        }
    }
}
