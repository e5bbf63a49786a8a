//! What the Rust's own functions answer to calls of the lines layer and of the searches, as lines of text.

use crate::answer::inputs;
use crate::calls::lines::{Call, Query};
use crate::calls::searches::{self, Answer};
use crate::case::Case;
use crate::convert::dwarf::references::{Found, Searched, searched};
use crate::convert::dwarf::{Collected, lines};
use crate::error::{Result, refusal};
use crate::model::LineEntry;
use crate::output::{written_files, written_warnings};
use crate::stand_in::gimli::{AttributeValue, Dwarf, Slice};

/// A line for a call of the lines layer, and one more for each query.
pub fn lines(call: &Call) -> String {
    finished(call).unwrap_or_else(|refusal| format!("refused {refusal}"))
}

fn finished(call: &Call) -> std::result::Result<String, u8> {
    match call {
        Call::Rows { case, queries } => {
            let (dwarf, units) = inputs(case)?;
            let collected = Collected::new(&dwarf, units.start).map_err(|error| refusal(&error))?;
            Ok(queries.iter().fold(listed(&collected), |text, query| format!("{text}\n{}", rows(query, &collected))))
        }
        _ => called(call).map_err(|error| refusal(&error)),
    }
}

fn called(call: &Call) -> Result<String> {
    Ok(match call {
        Call::Operand { place, program } => {
            let (value, next) = lines::operand(program, *place as usize)?;
            format!("operand {value} {next}")
        }
        Call::Program { base, lengths, offset, program } => {
            let sequences = lines::sequences(program, lengths, *base, *offset)?;
            sequences.iter().fold("sequences".to_owned(), |text, sequence| format!("{text} {sequence:x}"))
        }
        Call::Path(path) => {
            let (directory, basename, absolute) = lines::parts(path);
            format!("path {}|{}|{}", printed(directory), printed(basename), u8::from(absolute))
        }
        Call::Join(first, second) => format!("joined {}", printed(&lines::joined(first, second))),
        Call::Rows { .. } => unreachable!("finished answers it"),
    })
}

fn rows(query: &Query, collected: &Collected) -> String {
    let (rows, invalid) = collected.rows(query.start, query.end, query.sequence);
    rows.iter().fold(format!("rows {}", u8::from(invalid)), |text, row| {
        format!("{text} {:x}:{}:{}{}", row.address, row.file.get(), row.line, column(row))
    })
}

/// What follows a row's line: its column. The plain Rust knows none (E7).
#[cfg(not(feature = "plain"))]
fn column(row: &LineEntry) -> String {
    format!(":{}", row.column)
}

#[cfg(feature = "plain")]
fn column(_: &LineEntry) -> &'static str {
    ""
}

/// How many lines and sequences a unit has, the files that were added, and the warnings.
fn listed(collected: &Collected) -> String {
    let [lines, sequences] = collected.counts();
    let (files, warnings) = (written_files(&collected.builder), written_warnings(&collected.warnings));
    format!("lines {lines} sequences {sequences}|{}|{}", printed(&files), printed(&warnings))
}

/// An answer for each query of the searches, or one if an input is refused.
pub fn searches(call: &searches::Call) -> Vec<Answer> {
    let mut case = Case::new(call.main.clone(), call.supplementary.clone(), Vec::new());
    case.work = u64::MAX;
    let (dwarf, _) = match inputs(&case) {
        Ok(inputs) => inputs,
        Err(refusal) => return vec![Answer { text: format!("refused {refusal}"), reads: None }],
    };
    let queries: Vec<_> = call.queries.iter().map(|query| (query.asked, query.offset as usize)).collect();
    let none = || Answer { text: "no entry".to_owned(), reads: None };
    searched(&dwarf, &queries).into_iter().map(|searched| searched.map_or_else(none, |searched| search(&dwarf, &searched))).collect()
}

/// What a search finds, and how many entries it reads, which is held to both bounds.
fn search(dwarf: &Dwarf<Slice<'_>>, Searched { found, reads }: &Searched) -> Answer {
    let all = references_in(dwarf) + dwarf.sup().map_or(0, references_in);
    assert!(dwarf.sup().is_some() || *reads <= 3 + all, "{reads} entries read, {all} references, no supplementary input");
    assert!(*reads <= 1 + 2 * all, "{reads} entries read, {all} references");
    let text = match found {
        Ok(Found::Name(name)) => format!("name {}", printed(name.as_deref().unwrap_or_default())),
        Ok(Found::Declaration(Some(line))) => format!("line {} {}", line.file.get(), line.line),
        Ok(Found::Declaration(None)) => "no line".to_owned(),
        Err(error) => format!("refused {}", refusal(error)),
    };
    Answer { text, reads: Some(*reads) }
}

/// How many reference attributes an input has, of any name, repeated ones included.
fn references_in(dwarf: &Dwarf<Slice<'_>>) -> usize {
    let is_reference = |value: &AttributeValue<Slice<'_>>| {
        matches!(value, AttributeValue::UnitRef(_) | AttributeValue::DebugInfoRef(_) | AttributeValue::DebugInfoRefSup(_))
    };
    let entries = dwarf.units.iter().flat_map(|unit| &unit.entries);
    entries.flat_map(|entry| &entry.attributes).filter(|(_, value)| is_reference(value)).count()
}

/// Bytes from 21 to 7e hex stand for themselves, but for \ and |. Any other is a \ and two hex digits.
fn printed(bytes: &[u8]) -> String {
    let plain = |byte: u8| byte.is_ascii_graphic() && byte != b'\\' && byte != b'|';
    bytes.iter().map(|&byte| if plain(byte) { char::from(byte).to_string() } else { format!("\\{byte:02x}") }).collect()
}
