//! What the change requests ask, written from their own words and from the Standard, for the amendments of the Rust's text to call;
//! and which cases they set apart from the Rust's text as it stands.

use std::ops::Range;

use crate::answer::{inputs, is_oversize, work_needed};
use crate::case::{Answer, Case};
use crate::error::{Error, Result};
use crate::grammar::parse;
use crate::model::LineEntry;
use crate::stand_in::gimli::{AttributeValue, Dwarf, Slice};

/// What a request is about.
#[derive(Clone, Copy)]
pub enum Concerns {
    /// What an import of the units of these numbers reads.
    Units(fn(&Dwarf<Slice<'_>>, Range<usize>) -> bool),
    /// A call whose ordinal names no unit.
    NoUnit(fn(&Case) -> bool),
}

/// The requests that set cases apart.
pub const REQUESTS: [(&str, Concerns); 3] =
    [("E2", Concerns::Units(pads_advance)), ("E3", Concerns::Units(has_windows_path)), ("E4", Concerns::NoUnit(is_bare))];

/// For each request whether it sets a case apart. An input that the grammar refuses is none's.
pub fn set_apart(case: &Case) -> [bool; REQUESTS.len()] {
    let read = inputs(case);
    REQUESTS.map(|(_, concerns)| match (concerns, &read) {
        (Concerns::Units(concerns), Ok((dwarf, units))) => concerns(dwarf, units.clone()),
        (Concerns::NoUnit(concerns), Err(4)) => concerns(case),
        _ => false,
    })
}

// ---- E2: signed operands in line programs

/// Passes over opcode 3's single operand: a signed LEB128 number (the Standard, 7.6) of 64 bits and at most ten bytes.
pub fn skip_signed(program: &[u8], cursor: &mut usize) -> Result<()> {
    let fault = |detail| Err(Error::malformed("DWARF line program", detail));
    let rest = &program[*cursor..];
    let goes_on = rest.iter().take_while(|byte| **byte & 0x80 != 0).take(10).count();
    if goes_on == rest.len() && goes_on < 10 {
        return fault("truncated instruction");
    }
    if goes_on >= 9 && !matches!(rest[9] & 0x7f, 0 | 0x7f) {
        return fault("overflowing ULEB128 operand");
    }
    if goes_on == 10 {
        return fault("overlong ULEB128 operand");
    }
    let operand = &rest[..=goes_on];
    assert!(i64::try_from(signed(operand)).is_ok(), "an operand of more than 64 bits is passed over: {operand:x?}");
    *cursor += operand.len();
    Ok(())
}

/// The number that the bytes of a signed operand are, as the Standard's 7.6 decodes it.
fn signed(operand: &[u8]) -> i128 {
    let (mut value, mut shift) = (0, 0);
    for byte in operand {
        value |= i128::from(byte & 0x7f) << shift;
        shift += 7;
    }
    if operand[operand.len() - 1] & 0x40 != 0 { value - (1 << shift) } else { value }
}

/// Opcode 3 below the base: how many operands the header declares for it, and what follows it in the program.
pub struct Advance<'p> {
    pub declared: u8,
    pub rest: &'p [u8],
}

impl Advance<'_> {
    /// The tenth byte of its first operand, if nine go on before it.
    pub fn tenth(&self) -> Option<u8> {
        let (nine, after) = self.rest.split_at_checked(9)?;
        if nine.iter().all(|byte| byte & 0x80 != 0) { after.first().copied() } else { None }
    }

    /// Whether the request's own rule is about it, and the Rust's is not the judge.
    fn is_padded(&self) -> bool {
        self.declared == 1 && self.tenth().is_some()
    }
}

/// Every opcode 3 that a walk meets, up to the program's first fault, or to the first operand that the request is about.
pub fn advances<'p>(program: &'p [u8], lengths: &[u8], base: u8) -> Vec<Advance<'p>> {
    let (mut met, mut rest) = (Vec::new(), program);
    while let Some(after) = step(rest, lengths, base, &mut met) {
        rest = after;
    }
    met
}

/// Whether the request is about a program: a walk over it meets such an operand.
pub fn is_padded(program: &[u8], lengths: &[u8], base: u8) -> bool {
    advances(program, lengths, base).last().is_some_and(Advance::is_padded)
}

fn pads_advance(dwarf: &Dwarf<Slice<'_>>, units: Range<usize>) -> bool {
    let mut headers = dwarf.units[units].iter().filter_map(|unit| unit.lines.as_ref());
    headers.any(|header| is_padded(header.program.0, header.opcode_lengths.0, header.opcode_base))
}

/// What follows the first instruction (document 01, "Rules that bite"), if there is one and it is sound.
fn step<'p>(program: &'p [u8], lengths: &[u8], base: u8, met: &mut Vec<Advance<'p>>) -> Option<&'p [u8]> {
    let (&opcode, rest) = program.split_first()?;
    match opcode {
        0 => {
            let (length, rest) = unsigned(rest)?;
            rest.get(usize::try_from(length).ok().filter(|&length| length > 0)?..)
        }
        1 | 6 | 7 | 8 | 10 | 11 => Some(rest),
        _ if opcode >= base => Some(rest),
        9 => rest.get(2..),
        _ => {
            let declared = lengths.get(usize::from(opcode) - 1).copied().unwrap_or(0);
            if opcode == 3 {
                met.push(Advance { declared, rest });
                if met.last().is_some_and(Advance::is_padded) {
                    return None;
                }
            }
            (0..declared).try_fold(rest, |rest, _| Some(unsigned(rest)?.1))
        }
    }
}

/// An unsigned LEB128 number of 64 bits in at most ten bytes, and what follows it.
fn unsigned(bytes: &[u8]) -> Option<(u64, &[u8])> {
    let last = bytes.iter().take(10).position(|byte| byte & 0x80 == 0)?;
    let (operand, rest) = bytes.split_at(last + 1);
    let value = operand.iter().rev().fold(0_u128, |value, byte| value << 7 | u128::from(byte & 0x7f));
    Some((u64::try_from(value).ok()?, rest))
}

// ---- E3: Windows-built plug-ins

/// How long the root is of a path that the request splits: a drive letter, colon and separator, or two backslashes.
pub fn windows_root(path: &[u8]) -> Option<usize> {
    match path {
        [letter, b':', separator, ..] if letter.is_ascii_alphabetic() && is_separator(*separator) => Some(3),
        [b'\\', b'\\', ..] => Some(2),
        _ => None,
    }
}

fn is_separator(byte: u8) -> bool {
    matches!(byte, b'/' | b'\\')
}

/// Directory and basename of such a path: it is split at its last separator, which is dropped unless it ends the root.
pub fn split_windows(path: &[u8]) -> Option<(&[u8], &[u8])> {
    let root = windows_root(path)?;
    let (before, basename) = path.split_at(path.iter().rposition(|byte| is_separator(*byte))? + 1);
    let directory = if before.len() > root { &before[..before.len() - 1] } else { before };
    Some((directory, basename))
}

/// Whether a file of any unit has such a path. A failed one has no path.
fn has_windows_path(dwarf: &Dwarf<Slice<'_>>, _: Range<usize>) -> bool {
    let units = dwarf.units.iter().chain(dwarf.sup().into_iter().flat_map(|sup| &sup.units));
    let mut files = units.filter_map(|unit| unit.lines.as_ref()).flat_map(|header| header.file_zero.iter().chain(&header.files));
    files.any(|file| matches!(file.path, AttributeValue::String(path) if windows_root(path.0).is_some()))
}

// ---- E4: a package without debug data

/// "With an empty main sheet and ordinal 0". Of all units no ordinal is asked, and where there is none, that is this answer too (E11).
pub fn is_bare(case: &Case) -> bool {
    case.main.is_empty() && (case.all || case.ordinal == 0)
}

/// "The import is done, lengths and statistics are zero, and the line program is not read. Sizes, the supplementary sheet and the work
/// length are still tested", in document 01's order.
pub fn of_bare(case: &Case) -> Answer {
    let refusal = match parse(&case.supplementary, &case.program, true) {
        _ if is_oversize(case) => 1,
        Err(refusal) => refusal,
        Ok(supplementary) if case.work < work_needed(supplementary.fields, case.program.len(), false) => 5,
        Ok(_) => 0,
    };
    Answer { refusal, ..Answer::default() }
}

// ---- E7: columns in the rows

/// Whether one of two neighbours in a unit's table drops, if their sequence is the same: "as before, whatever their columns".
pub fn exact_neighbours(a: &LineEntry, b: &LineEntry) -> bool {
    (a.address, a.file, a.line) == (b.address, b.file, b.line)
}

/// What a row of the records ends in: "a column of 2 bytes after the line".
pub fn line_and_column(row: &LineEntry) -> Vec<u8> {
    [row.line.to_le_bytes().as_slice(), &row.column.to_le_bytes()].concat()
}
