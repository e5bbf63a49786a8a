//! Times the proved import beside the Rust importer as it stands, on the same inputs in one process. The answers are compared before anything is
//! timed, with the oracle's.

use std::env;
use std::hint::black_box;
use std::path::Path;
use std::process::ExitCode;

use oracle::Case;
use oracle::files::Source;
use oracle::plain::{finished, inputs};

#[path = "../../differential/src/call.rs"]
mod call;
mod joins;
mod lists;
mod looks;
mod programs;
mod sheets;
mod sides;
mod tables;

use sides::{buffers, ours};
use tables::{corpus, pass, scaled, wholes, worst};

const USAGE: &str = "
bench corpus CASES [TURNS]          the cases of a file, each by itself and all together
bench scaled [TURNS]                each family, from 1,024 fields to 65,536
bench worst [TURNS [PART]]          the worst that the limits allow, or those of them that have PART in their name
bench wholes [TURNS]                65,536 fields in 1 to 256 units, all imported at once
bench pass CASES [TURNS]            the pass that writes no buffer beside the import: the cases of a file, each family at 65,536 fields, the worst
bench programs [CASES CASES TIMES] [TURNS]  imports with rows as fields beside imports with rows from the line program: the units of two files, in both
                                    forms, with how long the decoder runs each program; families with many rows, the longest program
bench lists CASES [TURNS]           imports with range lists beside imports of the same ranges as fields: the units of a file; lists of many ranges
bench joins [TURNS]                 joins of symbols to trays of 65,536 fields to a million
bench looks CASES [TURNS]           look-ups in the records of the cases, joined to megabytes: by the records alone, and by an index of them
bench run ours|rust FAMILY FIELDS TURNS     one of them alone, for a profiler; FAMILY may be one of the worst, FIELDS is then not read
bench run ours|rust corpus CASES TURNS      the cases of a file";

fn main() -> ExitCode {
    let arguments: Vec<String> = env::args().skip(1).collect();
    match run(&arguments) {
        Ok(()) => ExitCode::SUCCESS,
        Err(message) => {
            eprintln!("bench: {message}");
            ExitCode::FAILURE
        }
    }
}

fn run(arguments: &[String]) -> Result<(), String> {
    let words: Vec<&str> = arguments.iter().map(String::as_str).collect();
    match words[..] {
        ["corpus", cases, ref turns @ ..] => corpus(&read(cases)?, self::turns(turns, 9)?),
        ["scaled", ref turns @ ..] => scaled(self::turns(turns, 9)?),
        ["worst", turns, part] => worst(self::turns(&[turns], 3)?, part),
        ["worst", ref turns @ ..] => worst(self::turns(turns, 3)?, ""),
        ["wholes", ref turns @ ..] => wholes(self::turns(turns, 9)?),
        ["pass", cases, ref turns @ ..] => pass(&read(cases)?, self::turns(turns, 9)?),
        ["programs", rows, programs, times, ref turns @ ..] => {
            programs::programs(&read(rows)?, &read(programs)?, &programs::nanoseconds(times)?, self::turns(turns, 9)?)
        }
        ["programs", ref turns @ ..] => programs::programs(&[], &[], &[], self::turns(turns, 9)?),
        ["lists", cases, ref turns @ ..] => lists::lists(&read(cases)?, self::turns(turns, 9)?),
        ["joins", ref turns @ ..] => joins::joins(self::turns(turns, 9)?),
        ["looks", cases, ref turns @ ..] => looks::looks(&read(cases)?, self::turns(turns, 9)?),
        ["run", side, "corpus", cases, ref turns @ ..] => alone(side, &read(cases)?, self::turns(turns, 1)?),
        ["run", side, family, fields, ref turns @ ..] => {
            let fields = fields.parse().map_err(|_| format!("{fields} is no number"))?;
            let known = sheets::FAMILIES.iter().find(|known| known.0 == family).map(|known| known.1(fields));
            let known = known.or_else(|| sheets::WORST.iter().find(|known| known.0 == family).map(|known| known.1()));
            alone(side, &[known.ok_or_else(|| format!("{family} is no family"))?], self::turns(turns, 1)?)
        }
        _ => Err(format!("these are the commands:{USAGE}")),
    }
}

fn turns(words: &[&str], otherwise: u32) -> Result<u32, String> {
    match words {
        [] => Ok(otherwise),
        [word] => word.parse().ok().filter(|&turns| turns > 0).ok_or_else(|| format!("{word} is no number of turns")),
        _ => Err(format!("these are the commands:{USAGE}")),
    }
}

/// The cases of a file, with work and buffers as long as each needs.
fn read(path: &str) -> Result<Vec<Case>, String> {
    let mut source = Source::open(Path::new(path))?;
    let mut cases = Vec::new();
    while let Some(mut case) = source.case()? {
        case.work = oracle::work_of(&case);
        (case.records, case.files, case.warnings) = (u32::MAX, u32::MAX, u32::MAX);
        cases.push(case);
    }
    Ok(cases)
}

/// One side alone, and nothing printed. Refused cases are passed over.
fn alone(side: &str, cases: &[Case], turns: u32) -> Result<(), String> {
    for case in cases {
        let mut buffers = buffers(case)?;
        if buffers.refused {
            continue;
        }
        for _ in 0..turns {
            match side {
                "ours" => _ = black_box(ours(black_box(case), &mut buffers)),
                "rust" => {
                    if let Ok((dwarf, units)) = inputs(black_box(case)) {
                        let _ = black_box(finished(black_box(case), &dwarf, units));
                    }
                }
                _ => return Err(format!("{side} is no side")),
            }
        }
    }
    Ok(())
}
