//! What a file of cases reaches: each refusal, each kind of warning, each clause of document 01's "Rules that
//! bite". The clauses are judged from the inputs, from what the Rust asked of them, and from its records.

use std::path::Path;

use crate::answer::{add, inputs};
use crate::case::Case;
use crate::convert::dwarf::{Imported, table};
use crate::files::Source;
use crate::grammar::field;
use crate::judge::judged;
use crate::output::files;
use crate::stand_in::gimli::{AttributeValue, Dwarf, Slice, UnitData};
use crate::trace::traced;

mod encodings;
mod list_fields;
mod lists;
mod programs;
mod records;
mod requests;
mod rows;
mod rules;
mod searches;
mod skipping;
mod whole;

use records::{records, tombstones};
use rows::sorting;
use rules::{RULES, Rule};
use searches::searches;
use skipping::skipping;

/// As many rows as a sheet has fields. What is asked of rows takes the square of their number, so a longer program's are passed over.
const MOST_ROWS: usize = 65_536;

/// One more than the largest refusal; 19 and 20 are none of an import's.
const REFUSALS: usize = 26;

type Data<'a> = UnitData<Slice<'a>>;
type Value<'a> = AttributeValue<Slice<'a>>;

/// How many cases reach each thing.
struct Counts {
    refusals: [u64; REFUSALS],
    warnings: [u64; 12],
    rules: [u64; RULES.len()],
}

/// Prints the table; false if something is missing.
pub fn coverage(path: &Path) -> Result<bool, String> {
    let mut source = Source::open(path)?;
    let (mut counts, mut cases) = (Counts { refusals: [0; REFUSALS], warnings: [0; 12], rules: [0; RULES.len()] }, 0);
    while let Some(case) = source.case()? {
        let mut reached = Reached([false; RULES.len()]);
        examine(&case, &mut counts, &mut reached).map_err(|message| format!("case {cases}: {message}"))?;
        counts.rules.iter_mut().zip(reached.0).for_each(|(count, reached)| *count += u64::from(reached));
        cases += 1;
    }
    let mut missing = 0;
    let mut row = |what: String, count: u64| {
        missing += u64::from(count == 0);
        println!("{count:>9}  {what}{}", if count == 0 { ": MISSING" } else { "" });
    };
    row("finished".to_owned(), counts.refusals[0]);
    (1..19).chain(21..REFUSALS).for_each(|number| row(format!("refusal {number}"), counts.refusals[number]));
    (1..12).for_each(|kind| row(format!("warning {kind}"), counts.warnings[kind]));
    RULES.iter().zip(counts.rules).for_each(|(rule, count)| row((*rule).to_owned(), count));
    println!("{cases} cases, {missing} missing");
    Ok(missing == 0)
}

struct Reached([bool; RULES.len()]);

impl Reached {
    fn hit(&mut self, rule: Rule, when: bool) {
        self.0[rule as usize] |= when;
    }
}

fn examine(case: &Case, counts: &mut Counts, reached: &mut Reached) -> Result<(), String> {
    let answer = judged(case)?;
    counts.refusals[usize::from(answer.refusal)] += 1;
    let (mut kinds, mut rest) = ([0; 12], &answer.warnings[..]);
    while let Some((_, payload, after)) = field(rest) {
        kinds[usize::from(payload[0])] = 1;
        rest = after;
    }
    counts.warnings.iter_mut().zip(kinds).for_each(|(count, kind)| *count += kind);
    reached.hit(Rule::MissingFile, kinds[6] == 1);
    requests::limits(case, &answer, reached);
    whole::parts(case, &answer, reached);
    encodings::fields(case, &answer, reached);
    list_fields::fields(case, &answer, reached);
    if case.main.is_empty() {
        let bare = if case.all { whole::bare } else { requests::bare };
        bare(case, answer.refusal, reached);
        return Ok(());
    }
    if case.all && answer.refusal == 5 {
        whole::short_work(case, reached);
    }
    let Ok((dwarf, units)) = inputs(case) else {
        return Ok(());
    };
    let mut imported = Imported::new();
    let mut marks = vec![whole::mark(&imported)];
    for unit in units {
        if !examine_unit(case, &dwarf, unit, &mut imported, reached)? {
            break;
        }
        marks.push(whole::mark(&imported));
    }
    match answer.refusal {
        _ if !case.all => {}
        0 => {
            whole::joined(case, &marks, reached);
            programs::all(&dwarf, reached);
        }
        refusal => whole::refused(case, &dwarf, refusal, reached),
    }
    Ok(())
}

/// Imports a unit behind those before it; false where it is refused.
fn examine_unit(
    case: &Case,
    dwarf: &Dwarf<Slice<'_>>,
    number: usize,
    imported: &mut Imported,
    reached: &mut Reached,
) -> Result<bool, String> {
    let (before, known) = (whole::mark(imported), files(&imported.builder).to_vec());
    let (result, events) = traced(|| add(case, dwarf, number, imported));
    let unit = &dwarf.units[number];
    if let Some(header) = &unit.lines {
        requests::advance_line(header, result.err().unwrap_or(0), reached);
    }
    programs::unit(unit, result.err().unwrap_or(0), &before.warnings(imported), reached);
    lists::unit(case, dwarf, unit, &events, result.err().unwrap_or(0), reached);
    searches(dwarf, &events, reached);
    let (Ok(()), Some(rows)) = (result, table(dwarf, number, &known)) else {
        return Ok(false);
    };
    if let Some(header) = unit.lines.as_ref().filter(|_| unit.rows().len() <= MOST_ROWS) {
        skipping(header, reached);
        sorting(unit, header, &rows.0, reached);
        requests::exact_neighbours(unit, &rows.0, reached);
        requests::windows_paths(unit, header, files(&imported.builder), reached);
    }
    programs::part(unit, &case.program, reached);
    tombstones(dwarf, unit, &events, reached);
    let functions = before.functions(imported);
    if case.all {
        whole::unit(number, &events, functions, before.files, reached);
    }
    records(case, dwarf, unit, functions, &events, &rows, reached)?;
    Ok(true)
}
