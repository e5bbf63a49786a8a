//! The answer of an import (document 01, "The answer of an import"), of a unit or, as E11 asks, of all units.

use std::ops::Range;
use std::rc::Rc;

use crate::case::{Answer, Case};
use crate::convert::dwarf::Imported;
use crate::error::refusal;
use crate::grammar::parse;
use crate::output;
use crate::stand_in::gimli::{Dwarf, Slice, UnitData};

const INPUT_LIMIT: usize = 16_777_216;
/// Of the program, and of the list section and the address table (E9).
const PROGRAM_LIMIT: usize = 4_194_304;
/// For each byte of the list section and each field 1f of a unit, so many of which count (E9).
const LIST_WORK: u64 = 8;
const COUNTED_LISTS: usize = 256;
/// Room for the longest joined path (E12).
const WORK_BESIDES: u64 = 32_768;

pub fn answer(case: &Case) -> Answer {
    answer_in(case, [case.records, case.files, case.warnings])
}

/// The answer of a call with other lengths of the three buffers.
pub fn answer_in(case: &Case, lengths: [u32; 3]) -> Answer {
    // The Rust, which imports a unit, has no answer to these.
    #[cfg(not(feature = "plain"))]
    if crate::requests::is_bare(case) {
        return crate::requests::of_bare(case);
    }
    inputs(case)
        .and_then(|(dwarf, units)| finished(case, &dwarf, units))
        .and_then(|imported| fitting(output::written(&imported, case.first_file), lengths))
        .unwrap_or_else(|refusal| Answer { refusal, ..Answer::default() })
}

/// The parsed inputs and the numbers of the units that are imported, or refusals 1 to 5.
pub fn inputs(case: &Case) -> Result<(Dwarf<Slice<'_>>, Range<usize>), u8> {
    if is_oversize(case) {
        return Err(1);
    }
    let main = parse(&case.main, &case.program, false)?;
    let supplementary = parse(&case.supplementary, &case.program, true)?;
    let units = if case.all { 0..main.units.len() } else { unit(case.ordinal, main.units.len())? };
    if case.work < work_for(case, main.fields + supplementary.fields, &main.units[units.clone()]) {
        return Err(5);
    }
    let [lists, addresses] = [&case.lists, &case.addresses].map(|section| Slice(section));
    let sup = (!case.supplementary.is_empty()).then(|| Box::new(Dwarf::new(supplementary.units, None, lists, addresses)));
    Ok((Dwarf::new(main.units, sup, lists, addresses), units))
}

/// The unit that an ordinal names.
fn unit(ordinal: u64, units: usize) -> Result<Range<usize>, u8> {
    let ordinal = usize::try_from(ordinal).ok().filter(|&ordinal| ordinal < units).ok_or(4)?;
    Ok(ordinal..ordinal + 1)
}

pub fn is_oversize(case: &Case) -> bool {
    let over = |limit: usize, inputs: &[&Vec<u8>]| inputs.iter().any(|input| input.len() > limit);
    over(INPUT_LIMIT, &[&case.main, &case.supplementary]) || over(PROGRAM_LIMIT, &[&case.program, &case.lists, &case.addresses])
}

/// The work that an import of some units needs: "the unit that needs most" (E11) decides.
fn work_for(case: &Case, fields: usize, units: &[Rc<UnitData<Slice<'_>>>]) -> u64 {
    let needed = |encoded: bool| work_needed(fields, case.program.len(), encoded);
    let needs = units.iter().map(|unit| needed(unit.encoding.is_some()) + list_work(case.lists.len(), unit.lists));
    needs.fold(needed(false), u64::max)
}

/// "8 × list bytes × the unit's 1f fields (256 at most counted) more" (E9).
pub fn list_work(bytes: usize, lists: usize) -> u64 {
    LIST_WORK * bytes as u64 * lists.min(COUNTED_LISTS) as u64
}

/// Of an import of a unit that has field 1d, "64 × program bytes in place of 4 ×" (E8).
pub fn work_needed(fields: usize, program: usize, encoded: bool) -> u64 {
    64 * fields as u64 + if encoded { 64 } else { 4 } * program as u64 + WORK_BESIDES
}

/// The work that a call needs; an input that is refused counts as one without fields.
pub fn work_of(case: &Case) -> u64 {
    let [main, supplementary] =
        [(&case.main, false), (&case.supplementary, true)].map(|(bytes, there)| parse(bytes, &case.program, there).ok());
    let fields = [&main, &supplementary].into_iter().flatten().map(|input| input.fields).sum();
    let asked = |number: usize| case.all || number as u64 == case.ordinal;
    let units: Vec<_> = main.into_iter().flat_map(|main| main.units).filter(|unit| asked(unit.number)).collect();
    work_for(case, fields, &units)
}

/// What the Rust leaves behind after these units, or refusals 6 to 15 and 21 to 25. "The result is the unit imports one after another, each beginning with
/// the file table the last one left", and "the first refused unit refuses all".
pub fn finished(case: &Case, dwarf: &Dwarf<Slice<'_>>, units: Range<usize>) -> Result<Imported, u8> {
    let mut imported = Imported::new();
    for unit in units {
        add(case, dwarf, unit, &mut imported)?;
    }
    Ok(imported)
}

/// The import of one more unit, over the same builder.
pub fn add(case: &Case, dwarf: &Dwarf<Slice<'_>>, unit: usize, imported: &mut Imported) -> Result<(), u8> {
    let result = imported.add(dwarf, unit, case.inlines, case.call_sites);
    // The Rust numbers files from 1 and finds room for more. Its file past the caller's last number
    // came before whatever stopped it later.
    let room = (1_u64 << 32) - u64::from(case.first_file);
    if output::files(&imported.builder).len() as u64 > room {
        return Err(15);
    }
    result.map_err(|error| refusal(&error))
}

/// Refusals 16 to 18 come when everything else is done, lowest first.
fn fitting(answer: Answer, [records, files, warnings]: [u32; 3]) -> Result<Answer, u8> {
    let over = |bytes: &[u8], length: u32| bytes.len() as u64 > u64::from(length);
    if over(&answer.records, records) {
        Err(16)
    } else if over(&answer.files, files) {
        Err(17)
    } else if over(&answer.warnings, warnings) {
        Err(18)
    } else {
        Ok(answer)
    }
}

/// The lengths that E1's pass gives for outputs of these lengths: "a records length past 2^64 − 1 gives 16, in E1's pass too" (E9). The others stay at the
/// largest number.
pub fn measured([records, files, warnings]: [u128; 3]) -> Result<[u64; 3], u8> {
    let most = |length: u128| u64::try_from(length).unwrap_or(u64::MAX);
    let records = u64::try_from(records).map_err(|_| 16)?;
    Ok([records, most(files), most(warnings)])
}
