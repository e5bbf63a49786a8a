//! The pass that writes no buffer, beside each import: held to the import's answer with buffers of any length, and then believed.

use oracle::{Answer, Case, answer};

use crate::call;
use crate::import::{BEHIND, FILLED, slice};
use crate::wrong::Wrong;

/// What the pass said, and the work slice after it.
pub struct Said {
    pub refusal: u8,
    pub lengths: [u64; 3],
    pub statistics: [u64; 4],
    pub work: Vec<u8>,
}

pub fn asked(case: &Case, wrong: Option<Wrong>) -> Said {
    let mut work = vec![FILLED; case.work as usize + BEHIND];
    let measure = if case.all { pezgok::measure_dwarf } else { pezgok::measure };
    let result = measure(call::inputs(case), call::asked(case), slice(&mut work));
    let mut said = Said { refusal: 0, lengths: [0; 3], statistics: [0; 4], work };
    match result {
        Ok(done) => {
            said.lengths = [done.records as u64, done.files as u64, done.warnings as u64];
            said.statistics = [done.functions, done.line_rows, done.inline_nodes, done.rejected_ranges];
        }
        Err(refusal) => said.refusal = refusal.number(),
    }
    if let Some(Wrong::Pass(wrong)) = wrong {
        wrong(&mut said);
    }
    said
}

/// The oracle's answer with buffers of any length; it is asked again where one was short.
pub fn whole(case: &Case, expected: &Answer) -> Answer {
    if is_short(expected) { answer(&ample(case)) } else { expected.clone() }
}

/// Whether a buffer was short.
fn is_short(answer: &Answer) -> bool {
    matches!(answer.refusal, 16..=18)
}

/// The same call with buffers of any length.
pub fn ample(case: &Case) -> Case {
    Case { records: u32::MAX, files: u32::MAX, warnings: u32::MAX, ..case.clone() }
}

fn lengths(answer: &Answer) -> [u64; 3] {
    [&answer.records, &answer.files, &answer.warnings].map(|bytes| bytes.len() as u64)
}

/// What the pass said against the answer with buffers of any length.
pub fn difference(whole: &Answer, said: &Said) -> Option<String> {
    if said.refusal != whole.refusal {
        return Some(format!("refusal {} instead of {}", said.refusal, whole.refusal));
    }
    if said.lengths != lengths(whole) {
        return Some(format!("lengths {:?} instead of {:?}", said.lengths, lengths(whole)));
    }
    if said.statistics != whole.statistics {
        return Some(format!("statistics {:?} instead of {:?}", said.statistics, whole.statistics));
    }
    let (work, behind) = said.work.split_at(said.work.len() - BEHIND);
    if work.iter().any(|&byte| byte != 0) || behind.iter().any(|&byte| byte != FILLED) {
        return Some("work is not all zero, or bytes behind it".into());
    }
    None
}

/// The same against a recorded answer: where a buffer was short, all that is known is that the pass finishes and that it is the first of which
/// it says more.
pub fn recorded_difference(case: &Case, expected: &Answer, said: &Said) -> Option<String> {
    if !is_short(expected) {
        return difference(expected, said);
    }
    let lent = [case.records, case.files, case.warnings].map(u64::from);
    let short = (0..3).find(|&k| said.lengths[k] > lent[k]);
    let same = said.refusal == 0 && short == Some(usize::from(expected.refusal) - 16);
    (!same).then(|| format!("refusal {}, lengths {:?} where {} is recorded", said.refusal, said.lengths, expected.refusal))
}

/// Imports that believe the pass, with their answers: buffers as long as it says, then a byte shorter in each.
pub fn believed(case: &Case, whole: &Answer, said: &Said) -> Vec<(Case, Answer)> {
    if said.refusal != 0 {
        return Vec::new();
    }
    let with = |lengths: [u64; 3]| {
        let [records, files, warnings] = lengths.map(|length| u32::try_from(length).expect("a length that the oracle gave too"));
        Case { records, files, warnings, ..case.clone() }
    };
    let mut calls = vec![(with(said.lengths), whole.clone())];
    for short in (0..3).filter(|&k| said.lengths[k] > 0) {
        let mut lengths = said.lengths;
        lengths[short] -= 1;
        calls.push((with(lengths), Answer { refusal: 16 + short as u8, ..Answer::default() }));
    }
    calls
}
