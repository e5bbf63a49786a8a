//! Joins of symbols, through the library, against the oracle's: the answer, the bytes of the result, those past its length, zeros after a refusal; with
//! work slices of several lengths, which must all answer alike and hold only 0 afterwards.

use std::fs;

use oracle::symbol_cases::{joins, long};
use oracle::symbols::Join;

use crate::Options;
use crate::import::{BEHIND, FILLED, slice};
use crate::report::put;
use crate::wrong::Wrong;

/// What a range takes in the work slice.
const RANGE: usize = 16;

/// A call and all that it left behind.
pub struct Got {
    pub refusal: u8,
    pub length: usize,
    pub result: Vec<u8>,
    pub work: Vec<u8>,
}

/// So many joins of a seed. False at the first difference, whose inputs are written out.
pub fn compare(seed: u64, count: u64, options: &Options) -> Result<bool, String> {
    let (mut calls, mut refusals) = (0u64, [0u64; 28]);
    for (place, join) in joins(seed).take(count as usize).chain(long(seed)).enumerate() {
        let expected = join.answer();
        let enough = pezgok::symbols_work_length(join.records.len(), join.symbols.len());
        for work in [0, RANGE, enough / 2, enough] {
            let mut got = ours(&join, work);
            if let Some(Wrong::Join(wrong)) = options.wrong {
                wrong(&mut got);
            }
            if let Some(what) = difference(&expected, &got) {
                println!("join {place}, {work} bytes of work, differs: {what}");
                return written(&join, options);
            }
            calls += 1;
            refusals[usize::from(expected.0)] += 1;
        }
    }
    println!("{calls} joins of symbols, 0 differences");
    println!("finished {}", refusals[0]);
    for number in [19, 26, 27] {
        println!("refused {number}: {}", refusals[number]);
    }
    Ok(true)
}

fn ours(join: &Join, work: usize) -> Got {
    let lent = |length: usize| vec![FILLED; length + BEHIND];
    let (mut result, mut work) = (lent(join.room), lent(work));
    let answer = pezgok::join_symbols_with(&join.records, &join.symbols, slice(&mut result), slice(&mut work));
    let (refusal, length) = match answer {
        Ok(length) => (0, length),
        Err(refusal) => (refusal.number(), 0),
    };
    Got { refusal, length, result, work }
}

fn difference((refusal, bytes): &(u8, Vec<u8>), got: &Got) -> Option<String> {
    let only = |bytes: &[u8], byte: u8| bytes.iter().all(|&b| b == byte);
    if got.refusal != *refusal {
        return Some(format!("refusal {} instead of {refusal}", got.refusal));
    }
    if got.length != bytes.len() {
        return Some(format!("{} bytes instead of {}", got.length, bytes.len()));
    }
    let (work, behind) = got.work.split_at(got.work.len() - BEHIND);
    if !only(work, 0) || !only(behind, FILLED) {
        return Some("work is not all zero, or bytes behind it".into());
    }
    let (result, behind) = got.result.split_at(got.result.len() - BEHIND);
    let (given, past) = result.split_at(bytes.len());
    if given != &bytes[..] {
        return Some("bytes of the result".into());
    }
    if !only(past, if *refusal == 0 { FILLED } else { 0 }) || !only(behind, FILLED) {
        return Some("bytes past the result's length".into());
    }
    None
}

fn written(join: &Join, options: &Options) -> Result<bool, String> {
    fs::create_dir_all(&options.out).map_err(|error| format!("{}: {error}", options.out.display()))?;
    put(&options.out, "records", &join.records)?;
    put(&options.out, "symbols", &join.symbols)?;
    Ok(false)
}
