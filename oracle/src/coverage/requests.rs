//! What of the change requests the cases reach, judged by the requests' own words.

use super::{Data, Reached, Rule, Value};
use crate::answer::work_needed;
use crate::case::{Answer, Case};
use crate::compose::{DECL_COLUMN, STRING, field_count};
use crate::convert::dwarf::Sequenced;
use crate::grammar::field;
use crate::model::{FileEntry, Function, LineEntry};
use crate::requests::advances;
use crate::stand_in::gimli::{EntryData, FileEntry as GimliFile, LineProgramHeader, LineRow, RowKind, Slice};

/// E2: opcode 3 on the way through a program, up to the fault that refuses it or the first operand that the request is about.
pub fn advance_line(header: &LineProgramHeader<Slice<'_>>, refusal: u8, reached: &mut Reached) {
    for advance in advances(header.program.0, header.opcode_lengths.0, header.opcode_base) {
        let rule = match (advance.declared, advance.tenth(), refusal) {
            (0, _, 0) => Rule::AdvanceOfNone,
            (1, Some(0x00), 0) => Rule::PaddedWith00,
            (1, Some(0x7f), 0) => Rule::PaddedWith7f,
            (1, Some(0x01), 10) => Rule::PaddedWith01,
            (1, Some(0x40), 10) => Rule::PaddedWith40,
            (1, Some(0x81), 10) => Rule::PaddedWith81,
            (1, Some(0x80), 11) => Rule::PaddedWith80,
            (1, Some(0xff), 11) => Rule::PaddedWithFf,
            (2.., Some(0x01), 0) => Rule::AdvanceOfTwo,
            (2.., Some(0x7f), 10) => Rule::AdvanceOfTwoRefused,
            _ => continue,
        };
        reached.hit(rule, true);
    }
}

/// E3: a Windows path of a file: its root's length, the bytes up to its last separator, what follows them.
struct Windows<'p> {
    root: usize,
    before: &'p [u8],
    name: &'p [u8],
    /// The number of the file's directory.
    directory: u64,
}

impl<'p> Windows<'p> {
    fn of(file: &GimliFile<Slice<'p>>) -> Option<Self> {
        let Value::String(Slice(path)) = file.path else { return None };
        let root = match path {
            [b'A'..=b'Z' | b'a'..=b'z', b':', b'/' | b'\\', ..] => 3,
            [b'\\', b'\\', ..] => 2,
            _ => return None,
        };
        let last = path.iter().rposition(|byte| matches!(byte, b'/' | b'\\'))?;
        let (before, name) = path.split_at(last + 1);
        Some(Self { root, before, name, directory: file.directory })
    }

    fn ends_its_root(&self) -> bool {
        self.before.len() == self.root
    }

    /// What of it is the file's directory.
    fn kept(&self) -> &'p [u8] {
        if self.ends_its_root() { self.before } else { &self.before[..self.before.len() - 1] }
    }
}

/// The paths of an imported unit's files, and how they stand in the file table.
pub fn windows_paths(unit: &Data<'_>, header: &LineProgramHeader<Slice<'_>>, table: &[FileEntry], reached: &mut Reached) {
    let own: &[u8] = unit.directory.map_or(b"", |own| own.0);
    let windows: Vec<Windows<'_>> = header.files.iter().filter_map(Windows::of).collect();
    for (place, path) in windows.iter().enumerate() {
        let (kept, ends) = (path.kept(), path.ends_its_root());
        // How many files of the table have its basename and such a directory.
        let stand =
            |test: &dyn Fn(&[u8]) -> bool| table.iter().filter(|entry| entry.basename == path.name && test(&entry.directory)).count();
        let (alone, behind) = (stand(&|directory| directory == kept), stand(&|directory| directory.ends_with(kept)));
        reached.hit(Rule::NoFile, path.name.is_empty());
        reached.hit(Rule::DriveKept, path.root == 3 && ends && alone == 1);
        reached.hit(Rule::BackslashesKept, path.root == 2 && ends && behind > 0);
        reached.hit(Rule::SeparatorDropped, !ends && behind > 0);
        let below = [own, b"/", kept].concat();
        reached.hit(Rule::BelowCompilation, path.root == 2 && !own.is_empty() && stand(&|directory| directory == below) == 1);
        // A path with a drive is absolute: its directory's number does not count.
        let beside = |other: &Windows<'_>| path.root == 3 || other.directory == path.directory;
        let same = |other: &Windows<'_>| (other.kept(), other.name) == (kept, path.name) && beside(other);
        let twice = windows[..place].iter().any(|other| other.before != path.before && same(other));
        reached.hit(Rule::OneNumber, twice && behind == 1);
    }
    for file in &header.files {
        let Value::String(Slice(path)) = file.path else { continue };
        let drive = matches!(path, [letter, b':', b'\\', ..] if !letter.is_ascii_alphabetic()) && !path.contains(&b'/');
        reached.hit(Rule::NoLetter, drive && table.iter().any(|entry| entry.basename == path && entry.directory.is_empty()));
    }
}

/// E4: a call with an empty main input.
pub fn bare(case: &Case, refusal: u8, reached: &mut Reached) {
    let first = case.ordinal == 0;
    // Of an accepted supplementary input.
    let needed = || work_needed(field_count(&case.supplementary), case.program.len(), false);
    match refusal {
        0 => {
            reached.hit(Rule::BareDone, true);
            reached.hit(Rule::BareProgram, case.program == [0]);
            reached.hit(Rule::BareSupplementary, !case.supplementary.is_empty());
            reached.hit(Rule::BareBuffers, (case.records, case.files, case.warnings) == (0, 0, 0));
        }
        1 => reached.hit(Rule::BareOversize, !first),
        2 => reached.hit(Rule::BareMisshapen, !first && case.work < work_needed(0, case.program.len(), false)),
        3 => reached.hit(Rule::BarePastLimit, first && case.work < work_needed(0, case.program.len(), false)),
        4 => reached.hit(Rule::BareOther, !first && case.work < needed()),
        5 => reached.hit(Rule::BareWork, first && case.work + 1 == needed()),
        _ => {}
    }
}

/// E7: rows of the sheet that follow each other and differ in the column alone: the table has the first.
fn neighbours<'u>(unit: &'u Data<'_>) -> impl Iterator<Item = (&'u LineRow, &'u LineRow)> {
    let told = |row: &LineRow| (row.kind == RowKind::Plain, row.address, row.file, row.line);
    let pairs = unit.rows().windows(2).map(|pair| (&pair[0], &pair[1]));
    pairs.filter(move |(a, b)| told(a).0 && told(a) == told(b) && a.column != b.column)
}

/// Whether a row of a table is one of the sheet.
fn is_row(entry: &LineEntry, row: &LineRow) -> bool {
    (entry.address, u64::from(entry.line), entry.column) == (row.address, row.line, row.column)
}

pub fn exact_neighbours(unit: &Data<'_>, table: &[Sequenced<LineEntry>], reached: &mut Reached) {
    let there = |row: &LineRow| table.iter().any(|(entry, _)| is_row(entry, row));
    reached.hit(Rule::ColumnsDropped, neighbours(unit).any(|(first, second)| there(first) && !there(second)));
}

/// The rows of a function against those that it was given: its own, and the one that is moved to its start.
pub fn columns(
    unit: &Data<'_>,
    entry: &EntryData<Slice<'_>>,
    function: &Function,
    own: &[&LineEntry],
    moved: Option<&LineEntry>,
    reached: &mut Reached,
) -> Result<(), String> {
    let line = |row: &LineEntry| (row.file, row.line);
    let start = function.range.start;
    let given = moved.map(|row| LineEntry { address: start, ..*row }).into_iter().chain(own.iter().map(|row| **row));
    let mut expected: Vec<LineEntry> = Vec::new();
    for row in given {
        match expected.last() {
            Some(last) if line(last) == line(&row) => reached.hit(Rule::ColumnsMerged, last.column != row.column),
            _ => expected.push(row),
        }
    }
    let rows = &function.lines;
    if let (true, [row]) = (expected.is_empty(), &rows[..]) {
        expected.push(LineEntry { column: 0, ..*row });
        reached.hit(Rule::DeclarationColumn, true);
        reached.hit(Rule::DeclarationsColumn, entry.attribute(DECL_COLUMN).is_some());
    }
    if *rows != expected {
        return Err(format!("a function's rows are {rows:?}, and by the documents' words {expected:?}"));
    }
    if let Some(moved) = moved {
        reached.hit(Rule::ColumnMoved, moved.column != 0);
        reached.hit(Rule::FirstMoved, neighbours(unit).any(|(first, _)| is_row(moved, first)));
    }
    let again = |place: usize, row: &LineEntry| rows[..place].iter().any(|before| line(before) == line(row) && before.column != row.column);
    reached.hit(Rule::LineTwice, rows.iter().enumerate().any(|(place, row)| again(place, row)));
    reached.hit(Rule::LargestColumn, rows.iter().any(|row| row.column == u16::MAX));
    Ok(())
}

/// E12: the lengths of an input's strings, each with false, and of its reasons.
fn lengths(input: &[u8]) -> Vec<(bool, usize)> {
    let (mut lengths, mut rest) = (Vec::new(), input);
    while let Some((tag, payload, after)) = field(rest) {
        let before = match tag {
            0x11 => Some(0),
            0x14 | 0x1a => Some(1),
            0x15 | 0x1c => Some(9),
            0x18 if payload.get(2) == Some(&STRING) => Some(3),
            _ => None,
        };
        lengths.extend(before.and_then(|before| payload.len().checked_sub(before)).map(|length| (tag == 0x1a, length)));
        rest = after;
    }
    lengths
}

/// E12: strings and reasons at their limits and one byte past them, in both inputs, and what the outputs have of the longest.
pub fn limits(case: &Case, answer: &Answer, reached: &mut Reached) {
    const NAME: usize = 6_113;
    const REASON: usize = 4_096;
    use Rule::*;
    for (input, [string, reason, longer_string, longer_reason]) in [
        (&case.main, [LongestString, LongestReason, LongerString, LongerReason]),
        (&case.supplementary, [LongestStringThere, LongestReasonThere, LongerStringThere, LongerReasonThere]),
    ] {
        let lengths = lengths(input);
        reached.hit(string, answer.refusal == 0 && lengths.contains(&(false, NAME)));
        reached.hit(reason, answer.refusal == 0 && lengths.contains(&(true, REASON)));
        reached.hit(longer_string, answer.refusal == 3 && lengths.contains(&(false, NAME + 1)));
        reached.hit(longer_reason, answer.refusal == 3 && lengths.contains(&(true, REASON + 1)));
    }
    let mut rest = &answer.records[..];
    while let Some((tag, payload, after)) = field(rest) {
        reached.hit(LongestFunction, tag == 0x41 && payload.len() == 16 + NAME);
        reached.hit(LongestNode, tag == 0x43 && payload.len() == 10 + NAME);
        reached.hit(LongestSite, tag == 0x45 && payload.len() == 9 + NAME);
        rest = after;
    }
    rest = &answer.files;
    while let Some((_, payload, after)) = field(rest) {
        let directory = usize::from(u16::from_le_bytes([payload[0], payload[1]]));
        let whole = payload.len() == 2 + 3 * NAME + 1;
        reached.hit(LongestPath, whole && directory == 2 * NAME + 1);
        reached.hit(LongestDirectory, whole && directory == 3 * NAME);
        rest = after;
    }
}
