//! Imports whose rows come from the line program beside imports of the same rows as fields (document 02, E8).

use std::hint::black_box;
use std::time::Duration;

use oracle::compose::{END, Fields, OPCODE_LENGTHS};
use oracle::generate::split;
use oracle::limits::longest_program;
use oracle::{Case, work_of};

use crate::sheets;
use crate::sides::{buffers, clear, ours, timed};
use crate::tables::{micros, ratio};

/// Tags of an input.
const LINE_HEADER: u8 = 0x13;
const LINE_ENCODING: u8 = 0x1d;
const ROW: u8 = 0x16;
/// clang's line base and range.
const BASE: i64 = -5;
const RANGE: i64 = 14;
const OPCODE_BASE: i64 = 13;
/// As many bytes as a program has at least whose rows are most of its import.
const LONG: usize = 4_096;

/// A unit with its rows as fields and with its program, and how long the decoder runs the program, if that is known.
type Pair<'c> = (&'c Case, &'c Case, Duration);

/// Both forms of the units of two files, then rows by the thousand in both forms, then the longest program.
pub fn programs(with_rows: &[Case], with_programs: &[Case], times: &[Duration], turns: u32) -> Result<(), String> {
    let columns = "input | rows | program bytes | the decoder | with fields | with its program | more | more to the decoder | ns a row";
    println!("| {columns} |\n|{}", "---|".repeat(columns.split('|').count()));
    if with_rows.len() != with_programs.len() || with_rows.len() != times.len() {
        return Err("the files have other units".to_owned());
    }
    let pairs: Vec<Pair> = with_rows.iter().zip(with_programs).zip(times).map(|((rows, program), time)| (rows, program, *time)).collect();
    if !pairs.is_empty() {
        line("the units", &pairs, turns)?;
        let long: Vec<Pair> = pairs.into_iter().filter(|pair| pair.1.program.len() >= LONG).collect();
        line(&format!("those with programs of {LONG} bytes or more"), &long, turns)?;
    }
    for (name, family) in sheets::FAMILIES.iter().filter(|family| family.0.contains("rows")) {
        for fields in [4_096, 16_384, 65_536] {
            let case = family(fields);
            line(&format!("{name}, {fields} fields"), &[(&case, &encoded(&case), Duration::ZERO)], turns)?;
        }
    }
    let case = longest_program();
    let (time, _) = least(&case, turns)?.ok_or("the longest program is refused")?;
    println!(
        "| the longest program, a row in each byte | {0} | {0} | - | - | {1} | - | - | {2} |",
        case.program.len(),
        micros(time),
        each(time, case.program.len())
    );
    Ok(())
}

/// The times of a file, a number of nanoseconds in each line.
pub fn nanoseconds(path: &str) -> Result<Vec<Duration>, String> {
    let text = std::fs::read_to_string(path).map_err(|error| format!("{path}: {error}"))?;
    text.lines().map(|line| line.parse().map(Duration::from_nanos).map_err(|_| format!("{path}: {line} is no time"))).collect()
}

pub fn each(time: Duration, rows: usize) -> String {
    format!("{:.1}", time.as_secs_f64() * 1e9 / rows.max(1) as f64)
}

/// The sums over units that both forms finish alike.
fn line(name: &str, pairs: &[Pair], turns: u32) -> Result<(), String> {
    let (mut sum, mut decoder, mut rows, mut bytes) = ([Duration::ZERO; 2], Duration::ZERO, 0, 0);
    for (with_rows, with_program, time) in pairs {
        let (Some(first), Some(second)) = (least(with_rows, turns)?, least(with_program, turns)?) else { continue };
        if first.1 != second.1 {
            continue;
        }
        sum = [sum[0] + first.0, sum[1] + second.0];
        decoder += *time;
        rows += split(&with_rows.main).iter().filter(|field| field.0 == ROW).count();
        bytes += with_program.program.len();
    }
    let [fields, program] = sum;
    // What the rows of a program cost more than rows that a decoder has made.
    let more = program.saturating_sub(fields);
    let (decoder, quotient) = if decoder.is_zero() { ("-".to_owned(), "-".to_owned()) } else { (micros(decoder), ratio(more, decoder)) };
    let times = [fields, program, more].map(micros).join(" | ");
    println!("| {name} | {rows} | {bytes} | {decoder} | {times} | {quotient} | {} |", each(program, rows));
    Ok(())
}

/// The least time of some turns, and what was written; none where the import is refused.
pub fn least(case: &Case, turns: u32) -> Result<Option<(Duration, [Vec<u8>; 3])>, String> {
    let mut buffers = buffers(case)?;
    if buffers.refused {
        return Ok(None);
    }
    let mut turn = || {
        clear(&mut buffers);
        timed(|| ours(black_box(case), &mut buffers)).0
    };
    let time = (0..turns).map(|_| turn()).min();
    Ok(time.map(|time| (time, buffers.outputs)))
}

/// A unit's rows written as a program, as a compiler would, and its line encoding in place of their fields.
fn encoded(case: &Case) -> Case {
    let (mut main, mut program) = (Fields::default(), Vec::new());
    let mut last = FIRST;
    for (tag, payload) in split(&case.main) {
        if tag == ROW {
            last = last.to(&payload, &mut program);
            continue;
        }
        oracle::field(&mut main.0, tag, &[&payload]);
        if tag == LINE_HEADER {
            oracle::field(&mut main.0, LINE_ENCODING, &[&[1, 1, 1, BASE as u8, RANGE as u8]]);
        }
    }
    let mut case = Case { main: main.0, program, ..case.clone() };
    case.work = work_of(&case);
    case
}

/// The registers before a row; the address is not set where a sequence begins.
#[derive(Clone, Copy)]
struct Registers {
    address: Option<u64>,
    file: u64,
    line: u64,
    column: u64,
}

const FIRST: Registers = Registers { address: None, file: 1, line: 1, column: 0 };

impl Registers {
    /// Writes the instructions that bring them to a row, and the row.
    fn to(self, row: &[u8], program: &mut Vec<u8>) -> Self {
        let number = |from: usize, size: usize| row[from..from + size].iter().rev().fold(0, |value, &byte| value << 8 | u64::from(byte));
        let (address, file, line, column) = (number(0, 8), number(8, 8), number(16, 8), number(24, 2));
        let advance = match self.address {
            Some(before) => address - before,
            None => {
                program.extend([0, 9, 2]);
                program.extend(address.to_le_bytes());
                0
            }
        };
        if row[26] == END {
            program.push(2);
            unsigned(program, advance);
            program.extend([0, 1, 1]);
            return FIRST;
        }
        for (opcode, before, now) in [(4, self.file, file), (5, self.column, column)] {
            if before != now {
                program.push(opcode);
                unsigned(program, now);
            }
        }
        let lines = line.wrapping_sub(self.line) as i64;
        let special = |lines: i64| lines - BASE + RANGE * advance.min(1 << 16) as i64 + OPCODE_BASE;
        if (BASE..BASE + RANGE).contains(&lines) && special(lines) < 256 {
            program.push(special(lines) as u8);
        } else {
            program.push(3);
            signed(program, lines);
            program.push(2);
            unsigned(program, advance);
            program.push(1);
        }
        Self { address: Some(address), file, line, column }
    }
}

fn unsigned(program: &mut Vec<u8>, mut value: u64) {
    while value > 0x7f {
        program.push(value as u8 | 0x80);
        value >>= 7;
    }
    program.push(value as u8);
}

fn signed(program: &mut Vec<u8>, mut value: i64) {
    while !(-0x40..0x40).contains(&value) {
        program.push(value as u8 | 0x80);
        value >>= 7;
    }
    program.push(value as u8 & 0x7f);
}

// The opcode base and the operand counts that every family's header has.
const _: () = assert!(OPCODE_LENGTHS.len() as i64 + 1 == OPCODE_BASE);

#[cfg(test)]
mod tests {
    use oracle::answer;

    use super::*;

    #[test]
    fn both_forms_of_a_family_are_answered_alike() {
        for (name, family) in sheets::FAMILIES.iter().filter(|family| family.0.contains("rows")) {
            let case = family(4_096);
            assert_eq!(answer(&case), answer(&encoded(&case)), "{name}");
        }
    }
}
