//! The oracle's commands.

use std::io::{self, Write};
use std::path::Path;
use std::process::ExitCode;
use std::{env, fs};

use oracle::files::{Source, Target};
use oracle::listing::{INPUT_LIMIT, PROGRAM_LIMIT, listing};
use oracle::{
    Case, answer, coverage, document, front_cases, generate, judge, judged, limits, line_cases, list_cases, list_forms, look_cases,
    machine_cases, program_cases, search_cases, whole_cases,
};

const USAGE: &str = "
oracle one DIR                              the listing of unit.main, unit.sup and unit.line in DIR
oracle answer CASES ANSWERS                 answers a file of cases
oracle compare CASES ANSWERS                answers the cases again, up to the first answer that differs
oracle rows CASES ROWS                      the rows of the imported units of each case, as fields have them or as a program gives them
oracle list CASES NUMBER                    the listing of one case, counted from 0
oracle unpack CASES NUMBER DIR              writes one case's unit.main, unit.sup and unit.line to DIR
oracle generate SEED COUNT CASES            writes cases by seed
oracle generate --below SIZE SEED COUNT CASES    the same, of those with fewer input bytes
oracle wholes SEED COUNT CASES              writes cases of all units and of parts of the program, those by hand first
oracle programs SEED COUNT CASES            writes cases of rows from line programs, those by hand first
oracle lists SEED COUNT CASES               writes cases of range lists, those by hand first
oracle forms CASES FORMS                    writes the other form of each case of range lists, fields in place of lists; other cases as they are
oracle large CASES                          writes the cases over 64 KiB, the same for every seed
oracle document CASES                       writes document 01's own cases
oracle coverage CASES                       counts what the cases reach; fails if something is missing
oracle judge CASES                          counts the cases that the plain Rust judges; fails if it answers otherwise, or if they are few
oracle lines SEED COUNT ROWS FRONTS PROGRAMS STDIN STDOUT    writes calls of operands, sequences and paths, then calls for the rows of units,
                                            then for rows from the front of tables, then for the rows of programs, and their answers as text
oracle searches SEED COUNT STDIN STDOUT     writes calls of the searches, and their answers as text
oracle looks SEED COUNT STDIN STDOUT        writes calls of the look-ups, and their answers as text";

/// How many counts of calls `lines` takes.
const LINE_CALLS: usize = 4;

const INPUTS: [&str; 3] = ["unit.main", "unit.sup", "unit.line"];

fn main() -> ExitCode {
    let arguments: Vec<String> = env::args().skip(1).collect();
    let arguments: Vec<&str> = arguments.iter().map(String::as_str).collect();
    match run(&arguments) {
        Ok(true) => ExitCode::SUCCESS,
        Ok(false) => ExitCode::from(1),
        Err(message) => {
            eprintln!("oracle: {message}");
            ExitCode::from(2)
        }
    }
}

/// False where a check found something.
fn run(arguments: &[&str]) -> Result<bool, String> {
    match *arguments {
        ["one", folder] => one(Path::new(folder)),
        ["answer", cases, answers] => answer_all(Path::new(cases), Path::new(answers)),
        ["compare", cases, answers] => compare(Path::new(cases), Path::new(answers)),
        ["rows", cases, rows] => rows_of(Path::new(cases), Path::new(rows)),
        ["list", cases, number] => print(&chosen(Path::new(cases), number)?),
        ["unpack", cases, number, folder] => unpack(&chosen(Path::new(cases), number)?, Path::new(folder)),
        ["generate", seed, count, cases] => write(cases, generated(u64::MAX, seed, count)?),
        ["generate", "--below", size, seed, count, cases] => write(cases, generated(number(size)?, seed, count)?),
        ["wholes", seed, count, cases] => write(cases, whole_cases::cases(number(seed)?).take(number(count)? as usize)),
        ["programs", seed, count, cases] => write(cases, program_cases::cases(number(seed)?).take(number(count)? as usize)),
        ["lists", seed, count, cases] => write(cases, list_cases::cases(number(seed)?).take(number(count)? as usize)),
        ["forms", cases, forms] => write_forms(Path::new(cases), Path::new(forms)),
        ["large", cases] => write(cases, limits::large().into_iter()),
        ["document", cases] => write(cases, document::cases().into_iter().map(|(_, case, _)| case)),
        ["coverage", cases] => coverage::coverage(Path::new(cases)),
        ["judge", cases] => judge::shares(Path::new(cases)),
        ["lines", seed, ref counts @ .., stdin, stdout] if counts.len() == LINE_CALLS => {
            let counts: Vec<u64> = counts.iter().map(|count| number(count)).collect::<Result<_, _>>()?;
            lines(number(seed)?, counts.try_into().expect("so many were given"), Path::new(stdin), Path::new(stdout))
        }
        ["searches", seed, count, stdin, stdout] => searches(number(seed)?, number(count)?, Path::new(stdin), Path::new(stdout)),
        ["looks", seed, count, stdin, stdout] => looks(number(seed)?, number(count)?, Path::new(stdin), Path::new(stdout)),
        _ => Err(format!("these are the commands:{USAGE}")),
    }
}

fn number(text: &str) -> Result<u64, String> {
    text.parse().map_err(|_| format!("\"{text}\" is no number"))
}

fn print(case: &Case) -> Result<bool, String> {
    io::stdout().write_all(&listing(&judged(case)?, case.first_file)).map_err(|error| error.to_string())?;
    Ok(true)
}

fn one(folder: &Path) -> Result<bool, String> {
    if !folder.is_dir() {
        return Err(format!("{} is no folder", folder.display()));
    }
    // A file that cannot be opened is empty.
    let [main, supplementary, program] = INPUTS.map(|name| fs::read(folder.join(name)).unwrap_or_default());
    if main.len() > INPUT_LIMIT || supplementary.len() > INPUT_LIMIT || program.len() > PROGRAM_LIMIT {
        println!("oversize");
        return Ok(true);
    }
    print(&Case::new(main, supplementary, program))
}

fn answer_all(cases: &Path, answers: &Path) -> Result<bool, String> {
    let (mut source, mut target) = (Source::open(cases)?, Target::create(answers)?);
    let mut count = 0;
    while let Some(case) = source.case()? {
        target.answer(&judged(&case).map_err(|message| format!("case {count}: {message}"))?)?;
        count += 1;
    }
    target.finish()
}

fn compare(cases: &Path, answers: &Path) -> Result<bool, String> {
    let (mut source, mut recorded) = (Source::open(cases)?, Source::open(answers)?);
    let mut count = 0;
    while let Some(case) = source.case()? {
        let expected = recorded.answer()?.ok_or(format!("{} has {count} answers, {} more cases", answers.display(), cases.display()))?;
        let answer = answer(&case);
        if answer != expected {
            println!("case {count} differs");
            return Ok(false);
        }
        judge::judge(&case, &answer).map_err(|message| format!("case {count}: {message}"))?;
        count += 1;
    }
    if recorded.answer()?.is_some() {
        return Err(format!("{} has {count} cases, {} more answers", cases.display(), answers.display()));
    }
    println!("{count} answers, none differs");
    Ok(true)
}

/// A line for each case: the rows of its imported units, before what refuses them, or the refusal of the inputs.
fn rows_of(cases: &Path, rows: &Path) -> Result<bool, String> {
    let (mut source, mut target) = (Source::open(cases)?, Target::create(rows)?);
    while let Some(case) = source.case()? {
        target.write(&[machine_cases::rows(&case).as_bytes(), b"\n"])?;
    }
    target.finish()
}

fn chosen(cases: &Path, text: &str) -> Result<Case, String> {
    let (mut source, place) = (Source::open(cases)?, number(text)?);
    for _ in 0..place {
        source.case()?;
    }
    source.case()?.ok_or(format!("{} has no case {place}", cases.display()))
}

fn unpack(case: &Case, folder: &Path) -> Result<bool, String> {
    for (name, bytes) in INPUTS.iter().zip([&case.main, &case.supplementary, &case.program]) {
        let mut target = Target::create(&folder.join(name))?;
        target.write(&[bytes])?;
        target.finish()?;
    }
    Ok(true)
}

/// So many cases of a seed, of those whose inputs have fewer bytes than `below`.
fn generated(below: u64, seed: &str, count: &str) -> Result<impl Iterator<Item = Case>, String> {
    let (seed, count) = (number(seed)?, number(count)?);
    let small = move |case: &Case| ((case.main.len() + case.supplementary.len() + case.program.len()) as u64) < below;
    Ok((0..).map(move |number| generate::case(seed, number)).filter(small).take(count as usize))
}

fn write(path: &str, cases: impl Iterator<Item = Case>) -> Result<bool, String> {
    let mut target = Target::create(Path::new(path))?;
    for case in cases {
        target.case(&case)?;
    }
    target.finish()
}

/// The other form of each case, fields in place of range lists.
fn write_forms(cases: &Path, forms: &Path) -> Result<bool, String> {
    let (mut source, mut target) = (Source::open(cases)?, Target::create(forms)?);
    while let Some(case) = source.case()? {
        target.case(&list_forms::with_fields(&case).unwrap_or(case))?;
    }
    target.finish()
}

/// So many calls of operands, programs and paths, so many for the rows of units, for rows from the front of tables and for the rows of programs,
/// behind their number, and the lines of each answer.
fn lines(seed: u64, counts: [u64; LINE_CALLS], stdin: &Path, stdout: &Path) -> Result<bool, String> {
    let all = counts.into_iter().try_fold(0u64, u64::checked_add).and_then(|all| u32::try_from(all).ok());
    let all = all.ok_or(format!("{counts:?} calls are too many"))?;
    let [count, rows, fronts, programs] = counts.map(|count| count as usize);
    let (mut cases, mut answers) = (Target::create(stdin)?, Target::create(stdout)?);
    cases.write(&[&all.to_le_bytes()])?;
    let calls = line_cases::calls(seed).take(count).chain(line_cases::rows_calls(seed).take(rows));
    let judged = calls.map(|call| Ok((call.bytes(), judge::judged_lines(&call)?)));
    let fronts = front_cases::calls(seed).take(fronts).map(|call| Ok((call.bytes(), call.answer())));
    let programs = machine_cases::calls(seed).take(programs).map(|call| Ok((call.bytes(), call.answer())));
    for (number, call) in judged.chain(fronts).chain(programs).enumerate() {
        let (call, answer) = call.map_err(|message: String| format!("call {number}: {message}"))?;
        cases.write(&[&call])?;
        answers.write(&[answer.as_bytes(), b"\n"])?;
    }
    Ok(cases.finish()? && answers.finish()?)
}

/// So many calls of the searches behind their number, and the lines of each answer.
fn searches(seed: u64, count: u64, stdin: &Path, stdout: &Path) -> Result<bool, String> {
    let all = u32::try_from(count).map_err(|_| format!("{count} calls are too many"))?;
    let (mut cases, mut answers) = (Target::create(stdin)?, Target::create(stdout)?);
    cases.write(&[&all.to_le_bytes()])?;
    for (number, call) in search_cases::calls(seed).take(count as usize).enumerate() {
        let answer = judge::judged_searches(&call).map_err(|message| format!("call {number}: {message}"))?;
        cases.write(&[&call.bytes()])?;
        answers.write(&[answer.as_bytes(), b"\n"])?;
    }
    Ok(cases.finish()? && answers.finish()?)
}

/// So many calls of the look-ups behind their number, and the lines of each answer.
fn looks(seed: u64, count: u64, stdin: &Path, stdout: &Path) -> Result<bool, String> {
    let all = u32::try_from(count).map_err(|_| format!("{count} calls are too many"))?;
    let (mut cases, mut answers) = (Target::create(stdin)?, Target::create(stdout)?);
    cases.write(&[&all.to_le_bytes()])?;
    for call in look_cases::calls(seed).take(count as usize) {
        cases.write(&[&call.bytes()])?;
        answers.write(&[call.answer().as_bytes(), b"\n"])?;
    }
    Ok(cases.finish()? && answers.finish()?)
}
