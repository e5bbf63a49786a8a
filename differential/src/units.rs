//! A second model of an import of all units: the proved imports of each unit alone, with files numbered from 1, joined by the oracle's `joined`.

use oracle::{Answer, Case, joined};

use crate::import::{Got, ours};
use crate::pass;
use crate::wrong::Wrong;

/// What differs in the proved import of all units, with its buffers as they are, from its units alone; these are counted.
pub fn difference(case: &Case, wrong: Option<Wrong>, count: &mut u64) -> Result<Option<String>, String> {
    let whole = answered(ours(case, wrong))?;
    let mut faulty = None;
    let what = joined::difference(case, &whole, |alone| {
        *count += 1;
        // Buffers that are as long as the pass says, not as long as can be.
        let [records, files, warnings] = pass::asked(alone, None).lengths.map(|length| length as u32);
        let exact = Case { records, files, warnings, ..alone.clone() };
        answered(ours(&exact, None)).unwrap_or_else(|message| {
            faulty = Some(message);
            Answer::default()
        })
    });
    faulty.map_or(Ok(what), Err)
}

/// What an import left behind, as an answer.
pub fn answered(got: Got) -> Result<Answer, String> {
    let Got { refusal, lengths, statistics, buffers, .. } = got;
    let part = |place: usize| buffers[place].get(..lengths[place] as usize).map(<[u8]>::to_vec);
    let [Some(records), Some(files), Some(warnings)] = [part(0), part(1), part(2)] else {
        return Err(format!("lengths {lengths:?} past the buffers"));
    };
    Ok(Answer { refusal, records, files, warnings, statistics })
}
