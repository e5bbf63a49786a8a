//! How many calls were compared, by refusal and by kind of warning.

use oracle::Answer;

/// One more than the largest refusal of an import.
const REFUSALS: usize = 26;

/// Refusals are few, kinds of warnings too.
#[derive(Default)]
pub struct Counts {
    pub calls: u64,
    pub believed: u64,
    /// Imports of one unit, to hold an import of all to.
    pub alone: u64,
    /// Calls with range lists that were held to their other form.
    pub forms: u64,
    refusals: [u64; REFUSALS],
    warnings: [u64; 12],
}

pub fn count(counts: &mut Counts, expected: &Answer) {
    counts.refusals[usize::from(expected.refusal)] += 1;
    let mut rest = &expected.warnings[..];
    while let [_, low, high, kind, ..] = *rest {
        counts.warnings[usize::from(kind)] += 1;
        rest = &rest[3 + usize::from(u16::from_le_bytes([low, high]))..];
    }
}

pub fn print(counts: &Counts) {
    println!("{} calls, 0 differences; {} of them with buffers as long as the pass says, or a byte shorter", counts.calls, counts.believed);
    if counts.alone > 0 {
        println!("{} imports of one unit, which imports of all units are held to", counts.alone);
    }
    if counts.forms > 0 {
        println!("{} calls with range lists held to those with fields in their place", counts.forms);
    }
    println!("finished {}", counts.refusals[0]);
    // 19 and 20 are none of an import's.
    for (number, count) in counts.refusals.iter().enumerate().skip(1).filter(|refusal| !matches!(refusal.0, 19 | 20)) {
        println!("refused {number}: {count}");
    }
    for (kind, count) in counts.warnings.iter().enumerate().skip(1) {
        println!("warning {kind}: {count}");
    }
}
