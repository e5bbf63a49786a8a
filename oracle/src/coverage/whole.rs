//! What of request E11 the cases reach: a unit's part of the program, and the import of all units. Judged from the fields themselves and from the
//! imports of each unit alone.

use super::{Reached, Rule};
use crate::answer::{answer, answer_in, finished, inputs, work_needed};
use crate::case::{Answer, Case};
use crate::compose::field_count;
use crate::convert::dwarf::Imported;
use crate::grammar::field;
use crate::model::Function;
use crate::output::{self, files, written};
use crate::stand_in::gimli::{Dwarf, Slice};
use crate::trace::Event;

const PART: u8 = 0x1e;
const ENCODING: u8 = 0x1d;
/// The number of the first field past the limit, counted from 0.
const PAST_FIELDS: usize = 65_536;

/// A field 1e, wherever it stands.
struct Part {
    supplementary: bool,
    /// Its number among the input's fields, and that of its unit; none before the first unit.
    number: usize,
    unit: Option<usize>,
    previous: u8,
    /// Start and length, if it has 16 bytes.
    values: Option<(u64, u64)>,
}

impl Part {
    fn end(&self) -> Option<u128> {
        self.values.map(|(start, length)| u128::from(start) + u128::from(length))
    }

    fn is_sound(&self, program: usize) -> bool {
        matches!(self.previous, 0x13 | ENCODING) && self.end().is_some_and(|end| end <= program as u128)
    }
}

/// The fields 1e of an input, and the input without them.
fn parts_of(input: &[u8], supplementary: bool) -> (Vec<Part>, Vec<u8>) {
    let (mut parts, mut others, mut rest) = (Vec::new(), Vec::new(), input);
    let (mut number, mut units, mut previous) = (0, 0_usize, 0);
    while let Some((tag, payload, after)) = field(rest) {
        units += usize::from(tag == 0x10);
        if tag == PART {
            let value = |at: usize| u64::from_le_bytes(payload[at..at + 8].try_into().unwrap());
            let values = (payload.len() == 16).then(|| (value(0), value(8)));
            parts.push(Part { supplementary, number, unit: units.checked_sub(1), previous, values });
        } else {
            output::field(&mut others, tag, &[payload]);
        }
        (rest, previous, number) = (after, tag, number + 1);
    }
    others.extend(rest);
    (parts, others)
}

/// The parts of both inputs, and the call without any.
fn stripped(case: &Case) -> (Vec<Part>, Case) {
    let (mut parts, main) = parts_of(&case.main, false);
    let (others, supplementary) = parts_of(&case.supplementary, true);
    parts.extend(others);
    (parts, Case { main, supplementary, ..case.clone() })
}

pub fn parts(case: &Case, answer: &Answer, reached: &mut Reached) {
    let (parts, without) = stripped(case);
    let program = case.program.len();
    match answer.refusal {
        2 if inputs(&without).err() != Some(2) => {
            if let Some(bad) = parts.iter().find(|part| !part.is_sound(program)) {
                misshapen(case, bad, reached);
            }
        }
        3 => reached.hit(Rule::PartPastFields, parts.iter().any(|part| part.number == PAST_FIELDS && part.is_sound(program))),
        0 => sound(case, answer, &parts, &without, reached),
        _ => {}
    }
}

/// A field 1e that is the first bad field of the inputs.
fn misshapen(case: &Case, bad: &Part, reached: &mut Reached) {
    let end = case.program.len() as u128;
    match (bad.previous, bad.values) {
        (PART, _) => reached.hit(Rule::PartTwice, true),
        (0x13 | ENCODING, None) => reached.hit(Rule::PartSize, true),
        (0x13 | ENCODING, Some((start, length))) => {
            reached.hit(Rule::PartPast, length > 0 && bad.end() == Some(end + 1));
            reached.hit(Rule::EmptyPartPast, length == 0 && u128::from(start) == end + 1);
            reached.hit(Rule::PartWraps, start > 0 && length > 0 && u128::from(start.wrapping_add(length)) <= end);
            reached.hit(Rule::PartPastThere, bad.supplementary);
            let asked = case.all || bad.unit == usize::try_from(case.ordinal).ok();
            reached.hit(Rule::PartPastUnasked, !bad.supplementary && !asked);
            reached.hit(Rule::PartPastLast, bad.number == PAST_FIELDS);
        }
        (0x14..=0x16 | 0x1c, _) => reached.hit(Rule::PartLate, true),
        (0x10..=0x12, _) => reached.hit(Rule::PartWithoutHeader, true),
        _ => {}
    }
}

/// The parts of a finished import.
fn sound(case: &Case, answer: &Answer, parts: &[Part], without: &Case, reached: &mut Reached) {
    let program = case.program.len() as u64;
    let asked = |part: &&Part| !part.supplementary && (case.all || part.unit == usize::try_from(case.ordinal).ok());
    let mut own: Vec<(u64, u64)> = parts.iter().filter(asked).filter_map(|part| part.values).collect();
    let is_real = |(_, length): &(u64, u64)| (1..program).contains(length);
    reached.hit(Rule::PartDone, own.iter().any(is_real));
    reached.hit(Rule::PartOfOne, !case.all && own.iter().any(is_real) && self::answer(without) != *answer);
    reached.hit(Rule::PartThere, parts.iter().any(|part| part.supplementary));
    reached.hit(Rule::EmptyPart, own.iter().any(|&(start, length)| length == 0 && start < program));
    reached.hit(Rule::EmptyPartAtTheEnd, program > 0 && own.contains(&(program, 0)));
    reached.hit(Rule::PartToTheEnd, own.iter().any(|part| is_real(part) && part.0 + part.1 == program));
    let headers = fields_of(&case.main, 0x13);
    reached.hit(Rule::WholeProgram, case.all && headers > own.len() && own.iter().any(is_real));
    own.retain(is_real);
    let overlap = |a: &(u64, u64), b: &(u64, u64)| a != b && a.0 < b.0 + b.1 && b.0 < a.0 + a.1;
    reached.hit(Rule::PartsOverlap, own.iter().any(|a| own.iter().any(|b| overlap(a, b))));
    own.sort_unstable();
    let end = own.iter().try_fold(0, |end, &(start, length)| (start == end).then_some(start + length));
    reached.hit(Rule::PartsTile, case.all && own.len() > 1 && own.len() == headers && end == Some(program));
}

fn fields_of(input: &[u8], wanted: u8) -> usize {
    let (mut count, mut rest) = (0, input);
    while let Some((tag, _, after)) = field(rest) {
        count += usize::from(tag == wanted);
        rest = after;
    }
    count
}

/// How much there is of what imports leave behind, after so many units.
pub struct Mark {
    functions: usize,
    pub files: usize,
    warnings: usize,
    rejected: usize,
}

pub fn mark(imported: &Imported) -> Mark {
    Mark {
        functions: imported.builder.functions().len(),
        files: files(&imported.builder).len(),
        warnings: imported.warnings.len(),
        rejected: imported.stats.rejected_ranges,
    }
}

impl Mark {
    /// How many warnings of each kind the units behind the mark gave.
    pub fn warnings(&self, imported: &Imported) -> [usize; 12] {
        let (mut kinds, bytes) = ([0; 12], output::written_warnings(&imported.warnings[self.warnings..]));
        let mut rest = &bytes[..];
        while let Some((_, payload, after)) = field(rest) {
            kinds[usize::from(payload[0])] += 1;
            rest = after;
        }
        kinds
    }

    /// The functions of the units behind the mark.
    pub fn functions<'i>(&self, imported: &'i Imported) -> &'i [Function] {
        &imported.builder.functions()[self.functions..]
    }
}

/// A unit among others that were imported: what it asked, its functions, how many files there were before it.
pub fn unit(number: usize, events: &[Event], functions: &[Function], before: usize, reached: &mut Reached) {
    let across = |event: &Event| matches!(event, Event::Follow { supplementary: false, unit, .. } if *unit != number);
    reached.hit(Rule::AcrossUnits, events.iter().any(across));
    let mut rows = functions.iter().flat_map(|function| &function.lines).map(|row| row.file.get() as usize);
    reached.hit(Rule::FileAgain, rows.clone().any(|file| (1..=before).contains(&file)));
    reached.hit(Rule::FileBehind, before > 0 && rows.any(|file| file > before));
}

/// The units of a finished import of all, by the marks before and behind each.
pub fn joined(case: &Case, marks: &[Mark], reached: &mut Reached) {
    let both = |of: fn(&Mark) -> usize| marks.windows(2).filter(|pair| of(&pair[0]) < of(&pair[1])).count() > 1;
    reached.hit(Rule::AllDone, both(|mark| mark.functions));
    reached.hit(Rule::WarningsJoined, both(|mark| mark.warnings));
    reached.hit(Rule::StatisticsAdded, both(|mark| mark.rejected));
    reached.hit(Rule::OrdinalNotRead, case.ordinal >= marks.len() as u64);
}

/// All units of a main input without any.
pub fn bare(case: &Case, refusal: u8, reached: &mut Reached) {
    let rule = match refusal {
        0 => Rule::AllBareDone,
        2 => Rule::AllBareMisshapen,
        3 => Rule::AllBarePastLimit,
        5 => Rule::AllBareWork,
        _ => return,
    };
    reached.hit(rule, case.ordinal != 0);
}

/// Work that is a byte short of what the whole program takes, and enough for every part.
pub fn short_work(case: &Case, reached: &mut Reached) {
    let (parts, _) = stripped(case);
    let largest = parts.iter().filter_map(|part| part.values).map(|(_, length)| length).max();
    let (fields, encoded) = (field_count(&case.main) + field_count(&case.supplementary), fields_of(&case.main, ENCODING) > 0);
    let needed = |program| work_needed(fields, program, encoded);
    let enough = largest.is_some_and(|largest| needed(largest as usize) <= case.work);
    reached.hit(Rule::AllWork, enough && case.work + 1 == needed(case.program.len()));
}

/// A refused import of all units, against the imports of each alone.
pub fn refused(case: &Case, dwarf: &Dwarf<Slice<'_>>, refusal: u8, reached: &mut Reached) {
    let last = dwarf.units.len() - 1;
    if (16..=18).contains(&refusal) {
        if let Ok(imported) = finished(case, dwarf, 0..last) {
            let before = written(&imported, case.first_file);
            let fits = |bytes: &[u8], length: u32| !bytes.is_empty() && bytes.len() <= length as usize;
            reached.hit(Rule::ShortRecords, refusal == 16 && fits(&before.records, case.records));
            reached.hit(Rule::ShortFiles, refusal == 17 && fits(&before.files, case.files));
            reached.hit(Rule::ShortWarnings, refusal == 18 && fits(&before.warnings, case.warnings));
        }
        return;
    }
    let alone: Vec<u8> =
        (0..=last).map(|unit| answer_in(&Case { all: false, ordinal: unit as u64, ..case.clone() }, [u32::MAX; 3]).refusal).collect();
    if refusal == 15 {
        reached.hit(Rule::FilesFull, last > 0 && alone.iter().all(|&refusal| refusal == 0));
        return;
    }
    let places: Vec<usize> = (0..=last).filter(|&unit| alone[unit] != 0).collect();
    match places[..] {
        [place] if last > 1 => {
            reached.hit(Rule::RefusedFirst, place == 0);
            reached.hit(Rule::RefusedBetween, place > 0 && place < last);
            reached.hit(Rule::RefusedLast, place == last);
            reached.hit(Rule::RefusedBeforeShort, place > 0 && (case.records, case.files, case.warnings) == (0, 0, 0));
        }
        [first, second, ..] => reached.hit(Rule::FirstOfTwo, alone[first] == refusal && alone[second] != refusal),
        _ => {}
    }
}
