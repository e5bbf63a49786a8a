//! A call of the proved import, all that it left behind, and what differs in that from the answer.

use oracle::{Answer, Case};

use crate::call::{asked, inputs};
use crate::wrong;

/// What stands in the buffers before a call, and behind them all the time.
pub const FILLED: u8 = 0xa5;
pub const BEHIND: usize = 16;

/// A call of the proved import and all that it left behind.
pub struct Got {
    pub refusal: u8,
    pub lengths: [u64; 3],
    pub statistics: [u64; 4],
    pub work: Vec<u8>,
    pub buffers: [Vec<u8>; 3],
}

pub fn ours(case: &Case, wrong: Option<wrong::Wrong>) -> Got {
    let lent = |length: u64| vec![FILLED; length as usize + BEHIND];
    let mut work = lent(case.work);
    let [mut records, mut files, mut warnings] =
        [case.records, case.files, case.warnings].map(|length| lent(u64::from(length.min(1 << 22))));
    let buffers =
        pezgok::Buffers { work: slice(&mut work), records: slice(&mut records), files: slice(&mut files), warnings: slice(&mut warnings) };
    let given = match wrong {
        Some(wrong::Wrong::Inputs(wrong)) => wrong(inputs(case)),
        _ => inputs(case),
    };
    let result = match wrong {
        Some(wrong::Wrong::Units(import)) if case.all => import(given, asked(case), buffers),
        _ if case.all => pezgok::import_dwarf(given, asked(case), buffers),
        _ => pezgok::import(given, asked(case), buffers),
    };
    let mut got = Got { refusal: 0, lengths: [0; 3], statistics: [0; 4], work, buffers: [records, files, warnings] };
    match result {
        Ok(done) => {
            got.lengths = [done.records as u64, done.files as u64, done.warnings as u64];
            got.statistics = [done.functions, done.line_rows, done.inline_nodes, done.rejected_ranges];
        }
        Err(refusal) => got.refusal = refusal.number(),
    }
    if let Some(wrong::Wrong::Import(wrong)) = wrong {
        wrong(&mut got);
    }
    got
}

pub fn slice(buffer: &mut [u8]) -> &mut [u8] {
    let length = buffer.len() - BEHIND;
    &mut buffer[..length]
}

pub fn difference(case: &Case, expected: &Answer, got: &Got) -> Option<String> {
    let parts = [("records", &expected.records), ("files", &expected.files), ("warnings", &expected.warnings)];
    if got.refusal != expected.refusal {
        return Some(format!("refusal {} instead of {}", got.refusal, expected.refusal));
    }
    if got.statistics != expected.statistics {
        return Some(format!("statistics {:?} instead of {:?}", got.statistics, expected.statistics));
    }
    let only = |bytes: &[u8], byte: u8| bytes.iter().all(|&b| b == byte);
    let (work, behind) = got.work.split_at(got.work.len() - BEHIND);
    if !only(work, 0) || work.len() as u64 != case.work {
        return Some("work is not all zero".into());
    }
    if !only(behind, FILLED) {
        return Some("bytes behind work".into());
    }
    for (k, (name, bytes)) in parts.into_iter().enumerate() {
        let (buffer, behind) = got.buffers[k].split_at(got.buffers[k].len() - BEHIND);
        if got.lengths[k] != bytes.len() as u64 {
            return Some(format!("{} bytes of {name} instead of {}", got.lengths[k], bytes.len()));
        }
        if !only(behind, FILLED) {
            return Some(format!("bytes behind the buffer of {name}"));
        }
        let (written, past) = buffer.split_at(bytes.len());
        if written != &bytes[..] {
            return Some(format!("bytes of {name}"));
        }
        if !only(past, if expected.refusal == 0 { FILLED } else { 0 }) {
            return Some(format!("bytes past the length of {name}"));
        }
    }
    None
}
