//! The bytes of the three buffers ("trays" in document 01).

use crate::GsymBuilder;
use crate::case::Answer;
use crate::convert::ConversionWarning;
use crate::convert::dwarf::Imported;
#[cfg(feature = "plain")]
use crate::model::LineEntry;
use crate::model::{AddressRange, FileEntry, FileIndex, InlineNode};
#[cfg(not(feature = "plain"))]
use crate::requests::line_and_column;

/// The files that were added, without the reserved one.
pub fn files(builder: &GsymBuilder) -> &[FileEntry] {
    &builder.files()[1..]
}

/// The answer of a finished import, whatever the lengths of the buffers.
pub fn written(imported: &Imported, first_file: u32) -> Answer {
    let stats = &imported.stats;
    let mut answer = Answer {
        statistics: [stats.dwarf_functions, stats.line_rows, stats.inline_nodes, stats.rejected_ranges].map(|count| count as u64),
        ..Answer::default()
    };
    // The Rust's index 0 is no file; its first file is 1.
    let number = |file: FileIndex| match file.get() {
        0 => 0,
        index => first_file + (index - 1),
    };
    let records = &mut answer.records;
    for function in imported.builder.functions() {
        field(records, 0x41, &[&range(function.range), &function.name]);
        for row in &function.lines {
            field(records, 0x42, &[&row.address.to_le_bytes(), &number(row.file).to_le_bytes(), &line_and_column(row)]);
        }
        if let Some(root) = &function.inline {
            node(records, root, 0, &number);
        }
        for site in &function.call_sites {
            let count = site.match_regex.len() as u8;
            field(records, 0x45, &[&site.return_offset.to_le_bytes(), &[count], &site.match_regex.concat()]);
        }
    }
    answer.files = written_files(&imported.builder);
    answer.warnings = written_warnings(&imported.warnings);
    answer
}

pub fn written_files(builder: &GsymBuilder) -> Vec<u8> {
    let mut output = Vec::new();
    for file in files(builder) {
        let length = file.directory.len() as u16;
        field(&mut output, 0x40, &[&length.to_le_bytes(), &file.directory, &file.basename]);
    }
    output
}

pub fn written_warnings(warnings: &[ConversionWarning]) -> Vec<u8> {
    let mut output = Vec::new();
    for warning in warnings {
        let (kind, values) = warning_parts(warning);
        field(&mut output, 0x46, &[&[kind], &values]);
    }
    output
}

/// The plain Rust knows no columns (E7): its rows end in the line.
#[cfg(feature = "plain")]
fn line_and_column(row: &LineEntry) -> [u8; 4] {
    row.line.to_le_bytes()
}

pub fn field(output: &mut Vec<u8>, tag: u8, parts: &[&[u8]]) {
    let length = parts.iter().map(|part| part.len()).sum::<usize>();
    output.push(tag);
    output.extend(u16::try_from(length).expect("a payload has at most 65,535 bytes").to_le_bytes());
    parts.iter().for_each(|part| output.extend_from_slice(part));
}

fn range(range: AddressRange) -> [u8; 16] {
    pair(range.start, range.end)
}

fn pair(first: u64, second: u64) -> [u8; 16] {
    (u128::from(first) | u128::from(second) << 64).to_le_bytes()
}

/// A node, its ranges, and the nodes below it.
fn node(output: &mut Vec<u8>, inline: &InlineNode, depth: u16, number: &impl Fn(FileIndex) -> u32) {
    let call_file = number(inline.call_file).to_le_bytes();
    field(output, 0x43, &[&depth.to_le_bytes(), &call_file, &inline.call_line.to_le_bytes(), &inline.name]);
    inline.ranges.iter().for_each(|&ranges| field(output, 0x44, &[&range(ranges)]));
    inline.children.iter().for_each(|child| node(output, child, depth + 1, number));
}

/// A warning's kind in document 01, and its two numbers or its reason.
fn warning_parts(warning: &ConversionWarning) -> (u8, Vec<u8>) {
    use ConversionWarning::*;
    let (kind, first, second) = match warning {
        // The stand-in for gimli gives a reason's bytes as characters of the same number.
        MalformedRanges { stopped, reason } => return (1 + u8::from(*stopped), reason.chars().map(|c| c as u8).collect()),
        RejectedRange { range } => (3, range.start, range.end),
        InvalidStatementSequence { die_offset, sequence_offset } => (4, *die_offset, *sequence_offset),
        LineSequenceMismatch { sequences, offsets } => (5, *sequences as u64, *offsets as u64),
        MissingLineFile { address, index } => (6, *address, *index),
        UnrepresentableLine { address, line } => (7, *address, *line),
        MissingInlineCallFile { die_offset, index } => (8, *die_offset, *index),
        InvalidInlineCallLine { die_offset, line } => (9, *die_offset, *line),
        InvalidDeclarationFile { die_offset, index } => (10, *die_offset, *index),
        InvalidDeclarationLine { die_offset, line } => (11, *die_offset, *line),
        other => panic!("a warning that no import of a unit gives: {other}"),
    };
    (kind, pair(first, second).to_vec())
}
