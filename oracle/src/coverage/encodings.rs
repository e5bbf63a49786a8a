//! What of request E8's field 1d the cases reach: where it may stand, what may not stand beside it, the work that it asks for. Judged from the fields
//! themselves.

use super::{Reached, Rule};
use crate::answer::{answer_in, inputs, work_of};
use crate::case::{Answer, Case};
use crate::grammar::field;
use crate::output;

const ENCODING: u8 = 0x1d;
const ROW: u8 = 0x16;
/// The number of the first field past the limit, counted from 0.
const PAST_FIELDS: usize = 65_536;

/// A field of an input.
struct Place<'i> {
    supplementary: bool,
    /// Its number among the input's fields, and that of its unit; none before the first unit.
    number: usize,
    unit: Option<usize>,
    previous: u8,
    tag: u8,
    payload: &'i [u8],
    /// Whether its unit had a 1d before it.
    encoded: bool,
}

impl Place<'_> {
    fn is_bad(&self) -> bool {
        match self.tag {
            ENCODING => self.previous != 0x13 || self.payload.len() != 5 || self.payload[2] > 1,
            ROW => self.encoded,
            _ => false,
        }
    }
}

fn places(input: &[u8], supplementary: bool) -> Vec<Place<'_>> {
    let (mut places, mut rest) = (Vec::new(), input);
    let (mut units, mut previous, mut encoded) = (0_usize, 0, false);
    while let Some((tag, payload, after)) = field(rest) {
        units += usize::from(tag == 0x10);
        encoded &= tag != 0x10;
        places.push(Place { supplementary, number: places.len(), unit: units.checked_sub(1), previous, tag, payload, encoded });
        encoded |= tag == ENCODING;
        (rest, previous) = (after, tag);
    }
    places
}

/// An input without its fields 1d.
fn stripped(input: &[u8]) -> Vec<u8> {
    let (mut others, mut rest) = (Vec::new(), input);
    while let Some((tag, payload, after)) = field(rest) {
        if tag != ENCODING {
            output::field(&mut others, tag, &[payload]);
        }
        rest = after;
    }
    others.extend(rest);
    others
}

/// The ordinals of the units of the main input that have a 1d, and how many units there are.
fn encoded_units(case: &Case) -> (Vec<usize>, usize) {
    let all = places(&case.main, false);
    let encoded = all.iter().filter(|place| place.tag == ENCODING).filter_map(|place| place.unit).collect();
    (encoded, all.iter().filter(|place| place.tag == 0x10).count())
}

pub fn fields(case: &Case, answer: &Answer, reached: &mut Reached) {
    let all = || places(&case.main, false).into_iter().chain(places(&case.supplementary, true));
    if !all().any(|place| place.tag == ENCODING) {
        return;
    }
    match answer.refusal {
        2 => {
            let without = Case { main: stripped(&case.main), supplementary: stripped(&case.supplementary), ..case.clone() };
            if let (true, Some(bad)) = (inputs(&without).err() != Some(2), all().find(Place::is_bad)) {
                misshapen(case, &bad, reached);
            }
        }
        3 => reached
            .hit(Rule::EncodingPastFields, all().any(|place| place.tag == ENCODING && place.number == PAST_FIELDS && !place.is_bad())),
        5 => short_work(case, reached),
        _ => {}
    }
    if answer.refusal == 0 {
        let (encoded, _) = encoded_units(case);
        let asked = |unit: &usize| case.all || *unit as u64 == case.ordinal;
        let imported = encoded.iter().any(asked);
        reached.hit(Rule::EncodedEnough, imported && case.work == work_of(case) && !case.program.is_empty());
        reached.hit(
            Rule::NotImported,
            !case.all && !imported && !encoded.is_empty() && case.work == work_of(case) && !case.program.is_empty(),
        );
        reached.hit(Rule::EncodingThere, all().any(|place| place.tag == ENCODING && place.supplementary));
    }
}

/// A field 1d, or a row beside one, that is the first bad field of the inputs.
fn misshapen(case: &Case, bad: &Place<'_>, reached: &mut Reached) {
    let asked = case.all || bad.unit == usize::try_from(case.ordinal).ok();
    if bad.tag == ROW {
        reached.hit(Rule::RowBeside, !bad.supplementary && asked);
        reached.hit(Rule::RowBesideUnasked, !bad.supplementary && !asked);
        reached.hit(Rule::RowBesideThere, bad.supplementary);
        reached.hit(Rule::RowBesidePast, bad.number == PAST_FIELDS);
        return;
    }
    let rule = match bad.previous {
        ENCODING => Rule::EncodingTwice,
        0x13 if bad.payload.len() != 5 => Rule::EncodingSize,
        0x13 => Rule::EncodingFlag,
        0x1e => Rule::EncodingBehindPart,
        0x14..=0x16 | 0x1c => Rule::EncodingLate,
        0x10..=0x12 => Rule::EncodingWithoutHeader,
        _ => return,
    };
    reached.hit(rule, true);
}

/// Work that is a byte short of 64 for each byte of the program.
fn short_work(case: &Case, reached: &mut Reached) {
    let (encoded, units) = encoded_units(case);
    let short = case.work + 1 == work_of(case) && case.program.len() > 1;
    reached.hit(Rule::EncodedWork, !case.all && encoded.iter().any(|unit| *unit as u64 == case.ordinal) && short);
    let first = Case { all: false, ordinal: 0, ..case.clone() };
    let enough = || answer_in(&first, [u32::MAX; 3]).refusal != 5;
    reached.hit(Rule::MostOfAll, case.all && units > 1 && !encoded.is_empty() && !encoded.contains(&0) && short && enough());
}
