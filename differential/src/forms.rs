//! Both forms of a call with range lists (E9), lists and fields in their place, by the proved import: the answers must be the same, but for a named inlined
//! entry's fault.

use oracle::{Answer, Case, list_forms, work_of};

use crate::import::ours;
use crate::pass;
use crate::units::answered;

/// What differs between the two; none where the call has no other form.
pub fn difference(case: &Case, count: &mut u64) -> Result<Option<String>, String> {
    let Some(fields) = list_forms::with_fields(case) else { return Ok(None) };
    *count += 1;
    let lists = import(&Case { work: work_of(case), ..case.clone() })?;
    Ok(list_forms::difference(&lists, &import(&fields)?))
}

/// An import into buffers that are as long as the pass says.
fn import(case: &Case) -> Result<Answer, String> {
    let [records, files, warnings] = pass::asked(case, None).lengths.map(|length| length as u32);
    answered(ours(&Case { records, files, warnings, ..case.clone() }, None))
}
