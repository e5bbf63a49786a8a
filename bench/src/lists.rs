//! Imports whose ranges come from lists beside imports of the same ranges as fields (document 02, E9).

use std::time::Duration;

use oracle::compose::Fields;
use oracle::list_forms::with_fields;
use oracle::{Case, work_of};

use crate::programs::{each, least};
use crate::tables::{micros, ratio};

const VERSION: u8 = 5;
const WORD: u8 = 4;
const ADDRESS: u8 = 8;
const SUBPROGRAM: u16 = 0x2e;
const INLINED: u16 = 0x1d;
const NAME: u16 = 0x03;
const OFFSET_PAIR: u8 = 4;
const BASE: u64 = 0x10_0000;
/// From the start of a range to that of the next, and its length.
const STEP: u64 = 16;
const LENGTH: u64 = 8;
/// Output buffers that are long enough for all of it.
const BUFFER: u32 = 1 << 26;

/// Both forms of the units of a file that have lists, then lists of many ranges: of a subprogram, and of inlined entries one below another.
pub fn lists(cases: &[Case], turns: u32) -> Result<(), String> {
    let columns = "input | units | list bytes | work bytes | with fields | with lists | to fields | ns a list byte";
    println!("| {columns} |\n|{}", "---|".repeat(columns.split('|').count()));
    line("the units with lists", cases, turns)?;
    for ranges in [1_024, 4_096, 16_384] {
        line(&format!("a subprogram with {ranges} ranges"), &[long(ranges, 0)], turns)?;
    }
    for ranges in [1_024, 4_096] {
        line(&format!("three inlined entries one below another, each with {ranges} ranges"), &[long(ranges, 3)], turns)?;
    }
    Ok(())
}

/// The sums over the cases that both forms finish alike.
fn line(name: &str, cases: &[Case], turns: u32) -> Result<(), String> {
    let (mut sum, mut units, mut bytes, mut work) = ([Duration::ZERO; 2], 0, 0, 0);
    for case in cases {
        let Some(other) = with_fields(case) else { continue };
        let case = Case { work: work_of(case), ..case.clone() };
        let (Some(fields), Some(lists)) = (least(&other, turns)?, least(&case, turns)?) else { continue };
        if fields.1 != lists.1 {
            continue;
        }
        sum = [sum[0] + fields.0, sum[1] + lists.0];
        (units, bytes, work) = (units + 1, bytes + case.lists.len(), work + case.work);
    }
    let [fields, lists] = sum;
    println!("| {name} | {units} | {bytes} | {work} | {} | {} | {} | {} |", micros(fields), micros(lists), ratio(lists, fields), each(lists, bytes));
    Ok(())
}

/// A unit whose subprogram has a list of so many ranges; or, where there are inlined entries below it, one range, and they have the list.
fn long(ranges: u64, inlined: u16) -> Case {
    let mut main = Fields::default();
    let end = BASE + STEP * ranges;
    main.unit(0, 1_000, VERSION, WORD).text(BASE, end).entry(20, 0, SUBPROGRAM).string(NAME, b"f");
    if inlined == 0 {
        main.list(0, BASE, 0, ADDRESS);
    } else {
        main.range(BASE, end, 0);
    }
    for depth in 1..=inlined {
        main.entry(20 + 10 * u64::from(depth), depth, INLINED).string(NAME, b"i").list(0, BASE, 0, ADDRESS);
    }
    let mut lists = Vec::new();
    for range in 0..ranges {
        lists.push(OFFSET_PAIR);
        number(&mut lists, STEP * range);
        number(&mut lists, STEP * range + LENGTH);
    }
    lists.push(0);
    let case = Case { lists, records: BUFFER, files: BUFFER, warnings: BUFFER, ..Case::new(main.take(), Vec::new(), Vec::new()) };
    Case { work: work_of(&case), ..case }
}

/// An unsigned LEB128 number.
fn number(bytes: &mut Vec<u8>, mut value: u64) {
    while value > 0x7f {
        bytes.push(value as u8 | 0x80);
        value >>= 7;
    }
    bytes.push(value as u8);
}
