//! The proved import, of a unit or of all units, against the Rust importer, call by call: refusal, lengths, statistics, bytes written, bytes past
//! each length, bytes past each buffer, zeros after a refusal, work all zero. Before each call the pass that writes no buffer is asked, and what
//! it says is held to the same answer.
//! An import of all units is also held to the proved imports of each unit alone.
//! The Rust's text has the change requests' amendments; as it stands, it judges where none applies.

use std::env;
use std::path::{Path, PathBuf};
use std::process::ExitCode;

use oracle::files::{Source, Target};
use oracle::{Case, answer, generate, judged, limits, list_cases, program_cases, whole_cases, work_of};

mod call;
mod counts;
mod forms;
mod import;
mod joins;
mod look;
mod pass;
mod report;
mod units;
mod wrong;

use counts::{Counts, count, print};
use import::{difference, ours};
use report::{write_difference, write_inputs};

const USAGE: &str = "
differential generated SEED COUNT [OPTIONS]     generated cases, each as it is, then with other switches and with buffers at their limits
differential wholes SEED COUNT [OPTIONS]        cases of all units and of parts of the program, in the same way; each unit alone, too
differential programs SEED COUNT [OPTIONS]      cases of rows from line programs, in the same way
differential lists SEED COUNT [OPTIONS]         cases of range lists, in the same way; with fields in place of lists, too
differential cases CASES [OPTIONS]              the cases of a file, in the same way
differential answer CASES ANSWERS               the library's answers to the cases of a file, as they are
differential replay CASES ANSWERS [OPTIONS]     the cases of a file as they are, held to recorded answers
differential large [OPTIONS]                    the cases over 64 KiB
differential joins SEED COUNT [OPTIONS]         joins of symbols, each with work slices of several lengths
differential looks SEED COUNT                   look-ups in generated records, 40 queries each, held to the oracle's model
differential looks-in CASES                     the same in the records of the cases of a file
OPTIONS: --out DIR where a difference is written; --wrong NAME calls a wrong import, pass or join instead: it has to be reported";

struct Options {
    out: PathBuf,
    wrong: Option<wrong::Wrong>,
}

fn main() -> ExitCode {
    let arguments: Vec<String> = env::args().skip(1).collect();
    match run(&arguments) {
        Ok(true) => ExitCode::SUCCESS,
        Ok(false) => ExitCode::from(1),
        Err(message) => {
            eprintln!("differential: {message}");
            ExitCode::from(2)
        }
    }
}

fn run(arguments: &[String]) -> Result<bool, String> {
    let words: Vec<&str> = arguments.iter().map(String::as_str).collect();
    let number = |word: &str| word.parse::<u64>().map_err(|_| format!("{word} is no number"));
    match words[..] {
        ["generated", seed, count, ref rest @ ..] => {
            let (seed, count) = (number(seed)?, number(count)?);
            compare((0..count).map(move |k| Ok(generate::case(seed, k))), &options(rest)?)
        }
        ["wholes", seed, count, ref rest @ ..] => {
            compare(whole_cases::cases(number(seed)?).take(number(count)? as usize).map(Ok), &options(rest)?)
        }
        ["programs", seed, count, ref rest @ ..] => {
            compare(program_cases::cases(number(seed)?).take(number(count)? as usize).map(Ok), &options(rest)?)
        }
        ["lists", seed, count, ref rest @ ..] => {
            compare(list_cases::cases(number(seed)?).take(number(count)? as usize).map(Ok), &options(rest)?)
        }
        ["answer", cases, answers] => answers_of(Path::new(cases), Path::new(answers)),
        ["cases", path, ref rest @ ..] => {
            let mut source = Source::open(Path::new(path))?;
            compare(std::iter::from_fn(move || source.case().transpose()), &options(rest)?)
        }
        ["replay", cases, answers, ref rest @ ..] => replay(Path::new(cases), Path::new(answers), &options(rest)?),
        ["joins", seed, count, ref rest @ ..] => joins::compare(number(seed)?, number(count)?, &options(rest)?),
        ["looks", seed, count] => look::generated(number(seed)?, number(count)?),
        ["looks-in", path] => {
            let mut source = Source::open(Path::new(path))?;
            look::cases(std::iter::from_fn(move || source.case().transpose()))
        }
        ["large", ref rest @ ..] => compare(limits::large().into_iter().map(Ok), &options(rest)?),
        _ => Err(format!("these are the commands:{USAGE}")),
    }
}

fn options(mut words: &[&str]) -> Result<Options, String> {
    let mut options = Options { out: PathBuf::from("difference"), wrong: None };
    while let [word, value, rest @ ..] = words {
        match *word {
            "--out" => options.out = PathBuf::from(value),
            "--wrong" => options.wrong = Some(wrong::named(value)?),
            _ => return Err(format!("{word} is no option")),
        }
        words = rest;
    }
    if words.is_empty() { Ok(options) } else { Err(format!("{} has no value", words[0])) }
}

/// False at the first difference, which is written out.
fn compare(cases: impl Iterator<Item = Result<Case, String>>, options: &Options) -> Result<bool, String> {
    let mut counts = Counts::default();
    for (place, case) in cases.enumerate() {
        let case = case?;
        for (form, call) in forms(&case, place as u64).into_iter().enumerate() {
            let expected = judged(&call).map_err(|message| format!("case {place}, form {form}: {message}"))?;
            let whole = pass::whole(&call, &expected);
            let said = pass::asked(&call, options.wrong);
            if let Some(what) = pass::difference(&whole, &said) {
                println!("case {place}, form {form}, differs in what the pass says: {what}");
                write_inputs(&options.out, &call)?;
                return Ok(false);
            }
            let mut calls = vec![(call, expected)];
            // The forms behind these differ from the first in work and buffers alone.
            if form < SWITCHED {
                calls.append(&mut pass::believed(&calls[0].0, &whole, &said));
            }
            counts.believed += calls.len() as u64 - 1;
            for (call, expected) in calls {
                let got = ours(&call, options.wrong);
                counts.calls += 1;
                count(&mut counts, &expected);
                if let Some(what) = difference(&call, &expected, &got) {
                    println!("case {place}, form {form}, differs: {what}");
                    write_difference(&options.out, &call, &expected, &got)?;
                    return Ok(false);
                }
            }
        }
        if let Some(what) = if case.all { units::difference(&case, options.wrong, &mut counts.alone)? } else { None } {
            println!("case {place}, its units alone, differs: {what}");
            write_inputs(&options.out, &case)?;
            return Ok(false);
        }
        if let Some(what) = forms::difference(&case, &mut counts.forms)? {
            println!("case {place}, with fields in place of lists, differs: {what}");
            write_inputs(&options.out, &case)?;
            return Ok(false);
        }
    }
    print(&counts);
    Ok(true)
}

/// The same for recorded answers, which need no Rust.
fn replay(cases: &Path, answers: &Path, options: &Options) -> Result<bool, String> {
    let (mut cases, mut answers) = (Source::open(cases)?, Source::open(answers)?);
    let mut counts = Counts::default();
    while let Some(case) = cases.case()? {
        let expected = answers.answer()?.ok_or("there are fewer answers than cases")?;
        if let Some(what) = pass::recorded_difference(&case, &expected, &pass::asked(&case, options.wrong)) {
            println!("case {} differs from its recorded answer in what the pass says: {what}", counts.calls);
            write_inputs(&options.out, &case)?;
            return Ok(false);
        }
        let got = ours(&case, options.wrong);
        if let Some(what) = difference(&case, &expected, &got) {
            println!("case {} differs from its recorded answer: {what}", counts.calls);
            write_difference(&options.out, &case, &expected, &got)?;
            return Ok(false);
        }
        counts.calls += 1;
        count(&mut counts, &expected);
    }
    print(&counts);
    Ok(true)
}

/// Writes the library's answers to the cases of a file.
fn answers_of(cases: &Path, answers: &Path) -> Result<bool, String> {
    let (mut source, mut target) = (Source::open(cases)?, Target::create(answers)?);
    while let Some(case) = source.case()? {
        target.answer(&units::answered(ours(&case, None))?)?;
    }
    target.finish()
}

/// How many of the forms of a case differ in its switches alone.
const SWITCHED: usize = 5;

/// A case as it is; with each setting of the switches; and with work and buffers a byte short, exact and long of what it needs.
fn forms(case: &Case, place: u64) -> Vec<Case> {
    let mut forms = vec![case.clone()];
    let large = case.main.len() + case.supplementary.len() > 65_536;
    for switches in 0..if large { 0 } else { 4 } {
        let mut form = case.clone();
        (form.inlines, form.call_sites) = (switches & 1 == 1, switches & 2 == 2);
        forms.push(form);
    }
    let ample = pass::ample(case);
    let full = answer(&ample);
    if full.refusal != 0 || large {
        return forms;
    }
    let around = |length: usize, form: u64| match form % 3 {
        0 => (length as u32).saturating_sub(1),
        1 => length as u32,
        _ => length as u32 + 16,
    };
    for turn in 0..3 {
        let mut form = ample.clone();
        form.records = around(full.records.len(), turn + place);
        form.files = around(full.files.len(), turn + place / 3);
        form.warnings = around(full.warnings.len(), turn + place / 9);
        forms.push(form);
    }
    let needed = work_of(case);
    for work in [needed - 1, needed, needed + 1] {
        let mut form = case.clone();
        form.work = work;
        forms.push(form);
    }
    forms
}
