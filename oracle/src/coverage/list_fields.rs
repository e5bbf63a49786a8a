//! What of request E9's field 1f and of the two slices the cases reach: where it may stand, sizes, the work that lists ask for. Judged from the fields.

use super::{Reached, Rule};
use crate::answer::{answer_in, inputs, work_of};
use crate::case::{Answer, Case};
use crate::grammar::field;
use crate::output;

const LIST: u8 = 0x1f;
const UNIT: u8 = 0x10;
const VERSION: usize = 16;
const LENGTH: usize = 25;
/// The number of the first field past the limit, counted from 0, and how many fields 1f count for work.
const PAST_FIELDS: usize = 65_536;
const COUNTED: usize = 256;
/// The most bytes of the list section, and of the address table.
const SECTION_LIMIT: usize = 4_194_304;

/// A field of an input.
struct Place<'i> {
    supplementary: bool,
    /// Its number among the input's fields, and that of its unit; none before the first unit.
    number: usize,
    unit: Option<usize>,
    version: u8,
    previous: u8,
    tag: u8,
    payload: &'i [u8],
}

impl Place<'_> {
    fn is_bad(&self) -> bool {
        match self.tag {
            LIST => {
                let shaped = self.payload.len() == LENGTH && matches!(self.payload[LENGTH - 1], 4 | 8);
                !matches!(self.previous, 0x17 | 0x18) || !shaped || self.version != 5
            }
            0x18..=0x1a => self.previous == LIST,
            _ => false,
        }
    }
}

fn places(input: &[u8], supplementary: bool) -> Vec<Place<'_>> {
    let (mut places, mut rest) = (Vec::new(), input);
    let (mut units, mut previous, mut version) = (0_usize, 0, 0);
    while let Some((tag, payload, after)) = field(rest) {
        if tag == UNIT {
            units += 1;
            version = payload.get(VERSION).copied().unwrap_or(0);
        }
        places.push(Place { supplementary, number: places.len(), unit: units.checked_sub(1), version, previous, tag, payload });
        (rest, previous) = (after, tag);
    }
    places
}

/// An input without its fields 1f.
fn stripped(input: &[u8]) -> Vec<u8> {
    let (mut others, mut rest) = (Vec::new(), input);
    while let Some((tag, payload, after)) = field(rest) {
        if tag != LIST {
            output::field(&mut others, tag, &[payload]);
        }
        rest = after;
    }
    others.extend(rest);
    others
}

/// How many fields 1f each unit of the main input has.
fn counts(case: &Case) -> Vec<usize> {
    let all = places(&case.main, false);
    let mut counts = vec![0; all.iter().filter(|place| place.tag == UNIT).count()];
    all.iter().filter(|place| place.tag == LIST).filter_map(|place| place.unit).for_each(|unit| counts[unit] += 1);
    counts
}

pub fn fields(case: &Case, answer: &Answer, reached: &mut Reached) {
    reached.hit(Rule::LongLists, case.lists.len() > SECTION_LIMIT && answer.refusal == 1);
    reached.hit(Rule::LongTable, case.addresses.len() > SECTION_LIMIT && answer.refusal == 1);
    reached.hit(Rule::LongestLists, case.lists.len() == SECTION_LIMIT && answer.refusal == 0);
    reached.hit(Rule::LongestTable, case.addresses.len() == SECTION_LIMIT && answer.refusal == 0);
    let all = || places(&case.main, false).into_iter().chain(places(&case.supplementary, true));
    if !all().any(|place| place.tag == LIST) {
        return;
    }
    match answer.refusal {
        2 => {
            let without = Case { main: stripped(&case.main), supplementary: stripped(&case.supplementary), ..case.clone() };
            let bad = all().find(Place::is_bad);
            // What stands beside a list may be bad without it too.
            let beside = bad.as_ref().is_some_and(|bad| bad.tag != LIST);
            if let (true, Some(bad)) = (beside || inputs(&without).err() != Some(2), bad) {
                misshapen(case, &bad, reached);
            }
        }
        3 => reached.hit(Rule::ListPastFields, all().any(|place| place.tag == LIST && place.number == PAST_FIELDS && !place.is_bad())),
        5 => short_work(case, reached),
        0 => finished(case, reached),
        _ => {}
    }
}

fn finished(case: &Case, reached: &mut Reached) {
    let counts = counts(case);
    let asked = |unit: usize| case.all || unit as u64 == case.ordinal;
    let most = counts.iter().enumerate().filter(|(unit, _)| asked(*unit)).map(|(_, count)| *count).max().unwrap_or(0);
    let exact = case.work == work_of(case);
    reached.hit(Rule::ListEnough, exact && most > 0 && !case.lists.is_empty());
    reached.hit(Rule::ListCounted, exact && most > COUNTED && !case.lists.is_empty());
    reached.hit(Rule::NoListBytes, exact && most > 0 && case.lists.is_empty());
    let other = counts.iter().enumerate().any(|(unit, count)| !asked(unit) && *count > most);
    reached.hit(Rule::ListNotImported, exact && other && !case.lists.is_empty());
    reached.hit(Rule::ListThere, places(&case.supplementary, true).iter().any(|place| place.tag == LIST));
    reached.hit(Rule::ListsOfTwo, case.all && counts.iter().filter(|count| **count > 0).count() > 1);
}

/// A field 1f, or a field beside one, that is the first bad field of the inputs.
fn misshapen(case: &Case, bad: &Place<'_>, reached: &mut Reached) {
    let asked = case.all || bad.unit == usize::try_from(case.ordinal).ok();
    reached.hit(Rule::BadListPast, bad.number == PAST_FIELDS);
    let rule = match (bad.tag, bad.previous) {
        (0x18, _) => Rule::AttributeBehind,
        (0x19, _) => Rule::RangeBehind,
        (0x1a, _) => Rule::FailureBehind,
        (_, LIST) => Rule::ListTwice,
        (_, 0x19) => Rule::ListBehindRange,
        (_, 0x1a) => Rule::ListBehindFailure,
        (_, 0x17 | 0x18) if bad.payload.len() != LENGTH => Rule::ListSize,
        (_, 0x17 | 0x18) if !matches!(bad.payload[LENGTH - 1], 4 | 8) => Rule::ListAddressSize,
        (_, 0x17 | 0x18) => {
            reached.hit(Rule::OldUnasked, !bad.supplementary && !asked);
            reached.hit(Rule::OldThere, bad.supplementary);
            Rule::Old
        }
        _ => Rule::ListWithoutEntry,
    };
    reached.hit(rule, true);
}

/// Work that is a byte short.
fn short_work(case: &Case, reached: &mut Reached) {
    let counts = counts(case);
    let short = case.work + 1 == work_of(case) && !case.lists.is_empty();
    let own = usize::try_from(case.ordinal).ok().and_then(|unit| counts.get(unit)).copied().unwrap_or(0);
    reached.hit(Rule::ListWork, !case.all && own > 0 && short);
    reached.hit(Rule::CountedWork, !case.all && own > COUNTED && short);
    let first = Case { all: false, ordinal: 0, ..case.clone() };
    let enough = || answer_in(&first, [u32::MAX; 3]).refusal != 5;
    let more = counts.iter().any(|count| counts.first().is_some_and(|first| count > first));
    reached.hit(Rule::NeediestLists, case.all && more && short && enough());
}
