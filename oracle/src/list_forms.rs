//! The other form of a call with range lists (E9): each field 1f of an imported unit is replaced by the fields 19 of the ranges that its list yields and,
//! where it has a fault, by a 1a of stage 1 with the fault's number as reason. "Yields the same ranges as 19 fields": the answers are the same, but for a
//! named inlined entry's fault, which is 6 by a 1a.

use crate::answer::{inputs, work_of};
use crate::case::{Answer, Case};
use crate::compose::Fields;
use crate::generate::{joined, split};

const UNIT: u8 = 0x10;
const ENTRY: u8 = 0x17;
const LIST: u8 = 0x1f;
const MOST_FIELDS: usize = 65_536;
/// What a list can be refused with, and what a range failure of a named inlined entry is.
const OF_LISTS: [u8; 6] = [7, 10, 11, 23, 24, 25];
const OF_FAILURE: u8 = 6;

/// The call with fields in place of lists; none where the inputs are refused, or where no unit that is imported has a list, or the fields are too many.
pub fn with_fields(case: &Case) -> Option<Case> {
    let case = Case { work: work_of(case), ..case.clone() };
    let (dwarf, units) = inputs(&case).ok()?;
    if dwarf.units[units.clone()].iter().all(|unit| unit.lists == 0) {
        return None;
    }
    let (mut unit, mut entry, mut fields) = (usize::MAX, 0, Fields::default());
    for (tag, payload) in split(&case.main) {
        match tag {
            UNIT => (unit, entry) = (unit.wrapping_add(1), 0),
            ENTRY => entry += 1,
            _ => {}
        }
        if tag != LIST {
            fields.0.extend(joined(&[(tag, payload)]));
        } else if units.contains(&unit) {
            let (ranges, fault) = dwarf.ranges_of(&dwarf.units[unit].entries[entry - 1]);
            ranges.iter().for_each(|(range, dead)| _ = fields.range(range.begin, range.end, u8::from(*dead)));
            fault.iter().for_each(|number| _ = fields.failure(1, number.to_string().as_bytes()));
        }
    }
    let main = fields.take();
    let there = joined(&split(&case.supplementary).into_iter().filter(|field| field.0 != LIST).collect::<Vec<_>>());
    if split(&main).len() > MOST_FIELDS {
        return None;
    }
    let form = Case { main, supplementary: there, lists: Vec::new(), addresses: Vec::new(), ..case.clone() };
    Some(Case { work: work_of(&form), ..form })
}

/// What differs between the answers to a call with lists and to its other form.
pub fn difference(lists: &Answer, fields: &Answer) -> Option<String> {
    let by_fault = fields.refusal == OF_FAILURE && OF_LISTS.contains(&lists.refusal);
    (lists != fields && !by_fault).then(|| {
        format!(
            "refusal {} and statistics {:?} by its lists, {} and {:?} by fields",
            lists.refusal, lists.statistics, fields.refusal, fields.statistics
        )
    })
}

#[cfg(test)]
mod tests {
    use super::{difference, with_fields};
    use crate::case::Case;
    use crate::{judged, list_cases, work_of};

    #[test]
    fn both_forms_answer_alike() {
        let (mut finished, mut by_fault) = (0, 0);
        for (number, case) in list_cases::cases(2).take(6000).enumerate() {
            let Some(fields) = with_fields(&case) else { continue };
            let lists = judged(&Case { work: work_of(&case), ..case }).unwrap();
            let other = judged(&fields).unwrap();
            assert_eq!(difference(&lists, &other), None, "case {number}");
            finished += u64::from(lists.statistics[0] > 0);
            by_fault += u64::from(lists.refusal != other.refusal);
        }
        assert!(finished > 1000 && by_fault > 100, "{finished} with functions, {by_fault} refused by a list's fault");
    }
}
