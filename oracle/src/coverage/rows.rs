//! The rows of a unit, and those of a function.

use super::{Data, Reached, Rule, Value, requests};
use crate::compose::*;
use crate::convert::dwarf::Sequenced;
use crate::model::{AddressRange, Function, LineEntry};
use crate::stand_in::gimli::{EntryData, Format, LineProgramHeader, RowKind, Slice};

pub type Rows = (Vec<Sequenced<LineEntry>>, Vec<Sequenced<AddressRange>>);

pub fn sorting(unit: &Data<'_>, header: &LineProgramHeader<Slice<'_>>, rows: &[Sequenced<LineEntry>], reached: &mut Reached) {
    let ended = unit.rows().iter().rposition(|row| row.kind == RowKind::End).unwrap_or(0);
    let plain: Vec<_> = unit.rows()[..ended].iter().filter(|row| row.kind == RowKind::Plain).collect();
    let there = |address: u64, line: u64| rows.iter().any(|(row, _)| row.address == address && u64::from(row.line) == line);
    for pair in plain.windows(2) {
        let [a, b] = [pair[0], pair[1]].map(|row| (row.address, row.file, row.line));
        let both = there(a.0, a.2) && there(b.0, b.2);
        reached.hit(Rule::Sorted, b.0 < a.0 && both);
        reached.hit(Rule::ExactNeighbours, a == b && both);
    }
    for row in plain {
        let path = header.file(row.file).map(|file| &file.path);
        reached.hit(Rule::EmptyPath, matches!(path, Some(Value::String(path)) if path.0.is_empty() || path.0.ends_with(b"/")));
    }
    let stable = |pair: &[Sequenced<LineEntry>]| pair[0].0.address == pair[1].0.address && pair[0].0.line > pair[1].0.line;
    reached.hit(Rule::Stable, rows.windows(2).any(stable));
}

/// The statement sequence that a subprogram asks for.
fn requested(unit: &Data<'_>, entry: &EntryData<Slice<'_>>) -> Option<u64> {
    let value = match entry.attribute(STATEMENT_SEQUENCE)? {
        Value::Udata(value) => *value,
        Value::SecOffset(value) => *value as u64,
        Value::DebugLineRef(value) => value.0 as u64,
        _ => return None,
    };
    let none = if unit.format == Format::Dwarf64 { u64::MAX } else { u64::from(u32::MAX) };
    (value != none).then_some(value)
}

/// Judges a function's rows too, columns included: the plain Rust has none.
pub fn function_rows(
    unit: &Data<'_>,
    entry: &EntryData<Slice<'_>>,
    function: &Function,
    (rows, sequences): &Rows,
    reached: &mut Reached,
) -> Result<(), String> {
    let requested = requested(unit, entry);
    let range = function.range;
    let exists = requested.is_none_or(|_| sequences.iter().any(|sequence| sequence.1 == requested));
    let selected = requested.filter(|_| exists);
    let chosen = |offset: Option<u64>| selected.is_none() || selected == offset;
    let inside = rows.iter().filter(|row| range.contains(row.0.address));
    let own: Vec<&LineEntry> = inside.clone().filter(|row| chosen(row.1)).map(|row| &row.0).collect();
    let left_out = own.len() < inside.count();
    reached.hit(Rule::SequenceSelects, left_out);
    reached.hit(Rule::ProgramSequence, left_out && unit.encoding.is_some());
    let same = |a: &LineEntry, b: &LineEntry| (a.file, a.line) == (b.file, b.line);
    reached.hit(Rule::Compacted, own.windows(2).any(|pair| same(pair[0], pair[1])));
    let mut moved = None;
    let covering = sequences.iter().find(|sequence| chosen(sequence.1) && sequence.0.contains(range.start));
    if let Some(covering) = covering.filter(|_| own.first().is_none_or(|row| row.address > range.start)) {
        let of = selected.or(covering.1);
        moved = rows.iter().rev().find(|row| row.0.address < range.start && (of.is_none() || row.1 == of));
        if let Some((earlier, _)) = moved {
            reached.hit(Rule::Moved, true);
            reached.hit(Rule::MovedBefore, !own.is_empty());
            reached.hit(Rule::MovedOfAny, of.is_none());
            reached.hit(Rule::CompactedLast, own.first().is_some_and(|first| same(first, earlier)));
        }
    }
    let found = moved.is_some() || !own.is_empty();
    reached.hit(Rule::MissingSequence, !exists && found);
    reached.hit(Rule::MissingSequenceSilent, !exists && !found);
    requests::columns(unit, entry, function, &own, moved.map(|row| &row.0), reached)
}
