//! The look-ups against the oracle's model of them: answers, bytes of lists, bytes past their length and behind them, zeros after a refusal.

use oracle::look_cases::{self, Query};
use oracle::lookup::{self, Wanted};
use oracle::random::Random;
use oracle::{Case, answer};
use pezgok::look::{self, Index};

use crate::import::{BEHIND, FILLED};
use crate::pass;

/// How many queries a buffer is asked.
const QUERIES: u64 = 40;

#[derive(Default)]
struct Counts {
    buffers: u64,
    /// Those with an index, and those of them whose functions do not overlap.
    indexed: u64,
    rising: u64,
    /// By kind of query, and by answer.
    kinds: [u64; 4],
    refusals: [u64; 21],
    rowless: u64,
    /// By how many nodes the chain has, those of four or more together.
    chains: [u64; 5],
}

/// Generated buffers, of imports and of other shapes.
pub fn generated(seed: u64, count: u64) -> Result<bool, String> {
    compare((0..count).map(|number| {
        let call = look_cases::call(seed, number, QUERIES);
        Ok((call.records, call.queries))
    }))
}

/// The records of each case of a file, imported with inlines.
pub fn cases(cases: impl Iterator<Item = Result<Case, String>>) -> Result<bool, String> {
    compare(cases.enumerate().map(|(number, case)| {
        let mut case = pass::ample(&case?);
        case.inlines = true;
        let records = answer(&case).records;
        let queries = look_cases::queries(&mut Random::new(number as u64, 0), &records, QUERIES);
        Ok((records, queries))
    }))
}

fn compare(calls: impl Iterator<Item = Result<(Vec<u8>, Vec<Query>), String>>) -> Result<bool, String> {
    let mut counts = Counts::default();
    for call in calls {
        let (records, queries) = call?;
        counts.buffers += 1;
        if let Some(what) = by_index(&records, &queries, &mut counts) {
            println!("buffer {}, by its index, differs: {what}", counts.buffers - 1);
            return Ok(false);
        }
        for query in queries {
            if let Some(what) = difference(&records, query, &mut counts) {
                println!("buffer {}, {query:?}, differs: {what}", counts.buffers - 1);
                return Ok(false);
            }
        }
    }
    println!("{} queries of {} buffers, 0 differences", counts.kinds.iter().sum::<u64>(), counts.buffers);
    println!(
        "at an address {}, nearest below {}, inside {}, crossing {}",
        counts.kinds[0], counts.kinds[1], counts.kinds[2], counts.kinds[3]
    );
    println!(
        "answered {}, refused 16: {}, 19: {}, 20: {}",
        counts.refusals[0], counts.refusals[16], counts.refusals[19], counts.refusals[20]
    );
    println!("{} buffers have an index, {} of them in the order of addresses: the same answers by it", counts.indexed, counts.rising);
    println!("chains of 0, 1, 2, 3 and more nodes: {:?}; without a row {}", counts.chains, counts.rowless);
    Ok(true)
}

/// Every query at an address again, by the buffer's index, and by one of other bytes, which must come back too.
fn by_index(records: &[u8], queries: &[Query], counts: &mut Counts) -> Option<String> {
    let mut bytes = vec![FILLED; records.len() / 19 * look::EXTENT_SIZE + BEHIND];
    let index = match Index::make(records, &mut bytes) {
        Ok(index) => index,
        Err(refusal) => return (lookup::look_up(records, 0) != Err(refusal.number())).then(|| format!("no index: {refusal}")),
    };
    counts.indexed += 1;
    counts.rising += u64::from(index.is_rising());
    for &query in queries {
        if let Query::At(address) = query {
            let (expected, got) = (look::look_up(records, address), index.look_up(records, address));
            if got != expected {
                return Some(format!("{query:?}: {got:?} instead of {expected:?}"));
            }
            let _ = index.look_up(&records[..records.len() / 2], address);
        }
    }
    None
}

fn difference(records: &[u8], query: Query, counts: &mut Counts) -> Option<String> {
    match query {
        Query::At(address) => at(records, address, counts),
        Query::Below(address) => {
            counts.kinds[1] += 1;
            let expected = lookup::nearest_below(records, address);
            count(counts, expected.as_ref().err());
            let got = look::nearest_below(records, address).map_err(pezgok::Refusal::number);
            (got != expected).then(|| format!("{got:?} instead of {expected:?}"))
        }
        Query::Inside(start, end, length) => {
            counts.kinds[2] += 1;
            let expected = lookup::listed(records, Wanted::Inside, (start, end), length);
            count(counts, expected.as_ref().err());
            listed(length, &expected, |list| look::functions_inside(records, start..end, list))
        }
        Query::Crossing(start, end, length) => {
            counts.kinds[3] += 1;
            let expected = lookup::listed(records, Wanted::Crossing, (start, end), length);
            count(counts, expected.as_ref().err());
            listed(length, &expected, |list| look::functions_crossing(records, start..end, list))
        }
    }
}

fn at(records: &[u8], address: u64, counts: &mut Counts) -> Option<String> {
    counts.kinds[0] += 1;
    let expected = lookup::look_up(records, address);
    count(counts, expected.as_ref().err());
    let got = match look::look_up(records, address) {
        Ok(frames) => {
            if frames.places()[frames.chain().len()..].iter().any(|&place| place != 0) {
                return Some("something stands behind the chain".into());
            }
            Ok(lookup::Frames { function: frames.function, row: frames.row, chain: frames.chain().to_vec() })
        }
        Err(refusal) => Err(refusal.number()),
    };
    if let Ok(frames) = &expected {
        counts.rowless += u64::from(frames.row.is_none());
        counts.chains[frames.chain.len().min(4)] += 1;
    }
    (got != expected).then(|| format!("{got:?} instead of {expected:?}"))
}

fn count(counts: &mut Counts, refusal: Option<&u8>) {
    counts.refusals[usize::from(refusal.copied().unwrap_or(0))] += 1;
}

fn listed(length: usize, expected: &Result<Vec<u8>, u8>, call: impl Fn(&mut [u8]) -> Result<usize, pezgok::Refusal>) -> Option<String> {
    let mut lent = vec![FILLED; length + BEHIND];
    let got = call(&mut lent[..length]).map_err(pezgok::Refusal::number);
    let after = match expected {
        Ok(list) => [list.clone(), vec![FILLED; length - list.len()]].concat(),
        Err(_) => vec![0; length],
    };
    if got != expected.as_ref().map(Vec::len).map_err(|refusal| *refusal) {
        return Some(format!("{got:?} instead of {expected:?}"));
    }
    if lent[..length] != after {
        return Some("bytes of the list".into());
    }
    (lent[length..] != [FILLED; BEHIND]).then(|| "bytes behind the list".into())
}
