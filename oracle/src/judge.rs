//! Who judges the oracle's answers. They come from the Rust's text with the amendments of the change requests. The Rust's text as it
//! stands, the package `plain`, answers every call too, and wherever no request sets the call apart both must answer alike.

use std::ops::Range;
use std::path::Path;

use crate::calls::{lines, searches};
use crate::case::{Answer, Case};
use crate::files::Source;
use crate::requests::{REQUESTS, is_padded, set_apart, windows_root};
use crate::stand_in::gimli::{Dwarf, Slice};
use crate::{answer, answer_in, call_answers, generate, grammar, inputs, output};

/// The oracle's answer, of which the plain Rust has been asked; else what is wrong.
pub fn judged(case: &Case) -> Result<Answer, String> {
    let answer = answer(case);
    judge(case, &answer)?;
    Ok(answer)
}

/// Whether the plain Rust gives the oracle's answer too. It must, unless a request sets the case apart.
///
/// Its records are shorter, since it knows no columns (E7), and so it does not say when they are too long for their buffer: it is asked with
/// one that is as long as can be, and where the oracle refuses with 16, both are asked with three of those.
pub fn judge(case: &Case, answer: &Answer) -> Result<bool, String> {
    const ROOM: u32 = u32::MAX;
    let short = answer.refusal == 16;
    let lengths = if short { [ROOM; 3] } else { [ROOM, case.files, case.warnings] };
    let plain = plain::answer_in(case, lengths);
    let shared = if short { same(&answer_in(case, lengths), &plain) } else { same(answer, &plain) };
    if !shared && !set_apart(case).contains(&true) {
        return Err(format!(
            "the plain Rust answers otherwise, and no request sets the case apart: refusal {} and statistics {:?}, the plain Rust's {} and {:?}",
            answer.refusal, answer.statistics, plain.refusal, plain.statistics
        ));
    }
    Ok(shared)
}

/// Whether two answers are the same in all that the plain Rust knows of: every byte counts but those of the columns, which E7 put in.
fn same(answer: &Answer, plain: &Answer) -> bool {
    (answer.refusal, answer.statistics) == (plain.refusal, plain.statistics)
        && (&answer.files, &answer.warnings) == (&plain.files, &plain.warnings)
        && without_columns(&answer.records) == plain.records
}

/// Records without the last two bytes of each row.
fn without_columns(records: &[u8]) -> Vec<u8> {
    let (mut kept, mut rest) = (Vec::with_capacity(records.len()), records);
    while let Some((tag, payload, after)) = grammar::field(rest) {
        let columns = if tag == 0x42 { 2 } else { 0 };
        output::field(&mut kept, tag, &[&payload[..payload.len() - columns]]);
        rest = after;
    }
    kept
}

/// The lines of an answer for rows without the last number of each row.
fn without_column_numbers(text: &str) -> String {
    let row = |word: &str| word.rsplit_once(':').map_or(word, |(kept, _)| kept).to_owned();
    let line = |line: &str| match line.strip_prefix("rows ") {
        Some(rows) => format!("rows {}", rows.split(' ').map(row).collect::<Vec<_>>().join(" ")),
        None => line.to_owned(),
    };
    text.split('\n').map(line).collect::<Vec<_>>().join("\n")
}

/// The answer to a call of the lines layer, judged in the same way.
pub fn judged_lines(call: &lines::Call) -> Result<String, String> {
    let apart = match call {
        lines::Call::Rows { case, .. } => set_apart(case).contains(&true),
        lines::Call::Program { base, lengths, program, .. } => is_padded(program, lengths, *base),
        lines::Call::Path(path) => windows_root(path).is_some(),
        lines::Call::Operand { .. } | lines::Call::Join(..) => false,
    };
    let (text, plain) = (call_answers::lines(call), plain::call_answers::lines(call));
    judged_text(&without_column_numbers(&text), &plain, apart)?;
    Ok(text)
}

/// The answers to a call of the searches, which no request is about, a line each. The counts of reads are the oracle's alone: its text of
/// the searches is the plain Rust's, which is not traced.
pub fn judged_searches(call: &searches::Call) -> Result<String, String> {
    let joined =
        |answers: &[searches::Answer], line: fn(&searches::Answer) -> String| answers.iter().map(line).collect::<Vec<_>>().join("\n");
    let (answers, plain) = (call_answers::searches(call), plain::call_answers::searches(call));
    judged_text(&joined(&answers, |answer| answer.text.clone()), &joined(&plain, |answer| answer.text.clone()), false)?;
    Ok(joined(&answers, searches::Answer::line))
}

fn judged_text(text: &str, plain: &str, apart: bool) -> Result<(), String> {
    if text == plain || apart {
        Ok(())
    } else {
        Err(format!("the plain Rust answers otherwise, and no request sets the call apart: {text:?}, the plain Rust's {plain:?}"))
    }
}

/// Prints how many cases of a file the plain Rust judges, and how many each request sets apart. False if the plain Rust answers
/// otherwise where it has to judge, or judges fewer than three in four.
pub fn shares(path: &Path) -> Result<bool, String> {
    let mut source = Source::open(path)?;
    let (mut cases, mut judged) = (0_u64, 0_u64);
    // Of each request, how many it sets apart, and how many of those the plain Rust answers otherwise.
    let mut apart = [(0_u64, 0_u64); REQUESTS.len()];
    // Those of all units, and those with a part of the program, which E11 brought; those that import a unit with field 1d, which E8 brought, or with
    // field 1f, which E9 brought.
    let (mut of_parts, mut of_programs, mut of_lists) = ([0_u64; 2], 0_u64, 0_u64);
    while let Some(case) = source.case()? {
        let has_part = |input: &[u8]| generate::split(input).iter().any(|field| field.0 == 0x1e);
        of_parts[0] += u64::from(case.all);
        of_parts[1] += u64::from(has_part(&case.main) || has_part(&case.supplementary));
        let is_encoded = |(dwarf, units): (Dwarf<Slice<'_>>, Range<usize>)| dwarf.units[units].iter().any(|unit| unit.encoding.is_some());
        let has_list = |(dwarf, units): (Dwarf<Slice<'_>>, Range<usize>)| dwarf.units[units].iter().any(|unit| unit.lists > 0);
        of_programs += u64::from(inputs(&case).is_ok_and(is_encoded));
        of_lists += u64::from(inputs(&case).is_ok_and(has_list));
        let shared = match judge(&case, &answer(&case)) {
            Ok(shared) => shared,
            Err(message) => {
                println!("case {cases}: {message}");
                return Ok(false);
            }
        };
        let by = set_apart(&case);
        for (counts, _) in apart.iter_mut().zip(by).filter(|(_, by)| *by) {
            *counts = (counts.0 + 1, counts.1 + u64::from(!shared));
        }
        judged += u64::from(!by.contains(&true));
        cases += 1;
    }
    let share = |count: u64| format!("{:.1} %", 100.0 * count as f64 / cases.max(1) as f64);
    println!("{cases} cases, {judged} of them ({}) judged by the plain Rust, which answers the same but for columns", share(judged));
    for ((request, _), (count, otherwise)) in REQUESTS.iter().zip(apart) {
        println!("{count} ({}) set apart by {request}; {otherwise} of them the plain Rust answers otherwise", share(count));
    }
    let [all, parts] = of_parts.map(|count| format!("{count} ({})", share(count)));
    println!("{all} are of all units, {parts} have parts of the program (E11): the plain Rust is run over them in the same way");
    let programs = share(of_programs);
    println!(
        "{of_programs} ({programs}) import a unit with field 1d (E8): both take its rows from the row machine, which the plain Rust can't judge"
    );
    let lists = share(of_lists);
    println!(
        "{of_lists} ({lists}) import a unit with field 1f (E9): both take its ranges from the list reader, which the plain Rust can't judge"
    );
    let most = 4 * judged >= 3 * cases;
    if !most {
        println!("fewer than three in four are judged by the plain Rust");
    }
    Ok(most)
}
