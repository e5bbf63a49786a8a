//! What of request E9 the cases reach by reading: every kind of list entry, every fault at a subprogram and at a named inlined entry, dead ranges, and lists
//! that are not read. Judged from the lists, step by step.

use super::{Data, Reached, Rule};
use crate::case::Case;
use crate::compose::{INLINED, SUBPROGRAM};
use crate::rnglists::{self, Cursor, Met, RangeList, Sections};
use crate::stand_in::gimli::{Dwarf, Slice};
use crate::trace::Event;

/// The rows of the kinds of entries, and of the faults of a subprogram's list and of a named inlined entry's.
const KINDS: [Rule; 8] = [
    Rule::EndOfList,
    Rule::BaseAddressx,
    Rule::StartxEndx,
    Rule::StartxLength,
    Rule::OffsetPair,
    Rule::BaseAddress,
    Rule::StartEnd,
    Rule::StartLength,
];
const FAULTS: [(u8, Rule, Rule); 6] = [
    (7, Rule::Subprogram7, Rule::Inlined7),
    (10, Rule::Subprogram10, Rule::Inlined10),
    (11, Rule::Subprogram11, Rule::Inlined11),
    (23, Rule::Subprogram23, Rule::Inlined23),
    (24, Rule::Subprogram24, Rule::Inlined24),
    (25, Rule::Subprogram25, Rule::Inlined25),
];

fn largest(size: u8) -> u128 {
    (1 << (8 * u32::from(size))) - 1
}

/// What an import of a unit read of its lists, and what it left alone.
pub fn unit(case: &Case, dwarf: &Dwarf<Slice<'_>>, unit: &Data<'_>, events: &[Event], refusal: u8, reached: &mut Reached) {
    if unit.lists == 0 {
        return;
    }
    let sections = Sections { lists: &case.lists, addresses: &case.addresses };
    let read: Vec<usize> =
        events.iter().filter_map(|event| if let Event::Ranges { entry } = event { Some(*entry) } else { None }).collect();
    let mut starts: Vec<(u64, usize)> = Vec::new();
    for (place, entry) in unit.entries.iter().enumerate() {
        let Some(list) = entry.list else { continue };
        let (ranges, fault) = dwarf.ranges_of(entry);
        if !read.contains(&place) {
            let subprogram = entry.tag.0 == SUBPROGRAM;
            let inlined = entry.tag.0 == INLINED;
            reached.hit(Rule::NamelessSubprogram, subprogram && refusal == 0 && fault.is_some());
            reached.hit(Rule::NamelessInlined, inlined && refusal == 0 && case.inlines && fault.is_some());
            reached.hit(Rule::InlinesOff, inlined && refusal == 0 && !case.inlines && fault.is_some());
            reached.hit(Rule::OtherTag, !subprogram && !inlined && refusal == 0 && fault.is_some());
            continue;
        }
        let subprogram = entry.tag.0 == SUBPROGRAM;
        if let Some(number) = fault {
            let (_, of_subprogram, of_inlined) = FAULTS.into_iter().find(|rule| rule.0 == number).expect("a fault of a list");
            reached.hit(of_subprogram, subprogram && refusal == 0);
            reached.hit(of_inlined, !subprogram && refusal == number);
            reached.hit(Rule::BeforeTheFault, subprogram && refusal == 0 && !ranges.is_empty());
        }
        reached.hit(Rule::SizeFour, list.size == 4 && !ranges.is_empty());
        reached.hit(Rule::SizeEight, list.size == 8 && !ranges.is_empty());
        let text = |address: u64| unit.text.iter().any(|text| text.begin <= address && address < text.end);
        for (range, _) in ranges.iter().filter(|range| range.1) {
            reached.hit(Rule::DeadRejected, subprogram && !text(range.begin));
            reached.hit(Rule::DeadInText, subprogram && text(range.begin));
            reached.hit(Rule::DeadInlined, !subprogram);
        }
        steps(list, sections, &mut starts, reached);
    }
    reached.hit(Rule::TooDeepList, refusal == 14);
}

/// Each entry of a list. `starts` has where entries of earlier lists begin.
fn steps(list: RangeList, sections: Sections<'_>, starts: &mut Vec<(u64, usize)>, reached: &mut Reached) {
    let (mut cursor, mut before) = (Cursor::new(list), list.offset);
    reached.hit(Rule::SharedTail, starts.iter().any(|start| start.0 == list.offset && start.1 > 0));
    let (mut place, mut based) = (0, false);
    while !cursor.is_ended() {
        let met = cursor.step(sections);
        starts.push((before, place));
        if let Some(rule) = met.kind.and_then(|kind| KINDS.get(usize::from(kind))) {
            reached.hit(*rule, met.fault == 0);
        }
        let bytes = sections.lists.get(before as usize..met.end).unwrap_or_default();
        one(list, sections, &met, bytes, place, reached);
        reached.hit(Rule::WideBase, met.fault == 25 && !based && list.base > largest(list.size) as u64);
        reached.hit(Rule::WideBaseUnused, met.fault == 0 && met.range.is_some() && !based && list.base > largest(list.size) as u64);
        based |= matches!(met.kind, Some(rnglists::BASE_ADDRESS | rnglists::BASE_ADDRESSX));
        if met.fault != 0 {
            return;
        }
        (before, place) = (met.end as u64, place + 1);
    }
    reached.hit(Rule::BehindTheEnd, before < sections.lists.len() as u64);
}

fn one(list: RangeList, sections: Sections<'_>, met: &Met, bytes: &[u8], place: usize, reached: &mut Reached) {
    let largest = largest(list.size);
    let by_index = matches!(met.kind, Some(rnglists::BASE_ADDRESSX | rnglists::STARTX_ENDX | rnglists::STARTX_LENGTH));
    let pair = met.kind == Some(rnglists::OFFSET_PAIR);
    match met.fault {
        23 => {
            reached.hit(Rule::NoEndEntry, met.kind.is_none() && place > 0);
            reached.hit(Rule::OffsetPast, met.kind.is_none() && place == 0 && !sections.lists.is_empty());
            reached.hit(Rule::NoSection, sections.lists.is_empty());
            reached.hit(Rule::UnknownKind, met.kind.is_some_and(|kind| kind > rnglists::START_LENGTH));
            reached.hit(Rule::CutAddress, matches!(met.kind, Some(rnglists::BASE_ADDRESS..=rnglists::START_LENGTH)));
        }
        7 => reached.hit(Rule::CutLength, met.kind == Some(rnglists::START_LENGTH)),
        24 => {
            let index = first_operand(bytes);
            let start = u128::from(list.addresses) + index * u128::from(list.size);
            let table = sections.addresses.len() as u128;
            reached.hit(Rule::BasePast, met.kind == Some(rnglists::BASE_ADDRESSX));
            reached.hit(Rule::StartPast, start + u128::from(list.size) > table && met.kind == Some(rnglists::STARTX_ENDX));
            reached.hit(Rule::EndPast, start + u128::from(list.size) <= table && met.kind == Some(rnglists::STARTX_ENDX));
            reached.hit(Rule::LengthPast, met.kind == Some(rnglists::STARTX_LENGTH));
            reached.hit(Rule::AddressCut, start < table && start + u128::from(list.size) > table);
            reached.hit(Rule::PlaceWraps, start >= 1 << 64);
        }
        25 => {
            reached.hit(Rule::WideLength, met.kind == Some(rnglists::START_LENGTH));
            reached.hit(Rule::WideIndexed, met.kind == Some(rnglists::STARTX_LENGTH));
            reached.hit(Rule::WideStart, pair && met.base + first_operand(bytes) > largest);
            reached.hit(Rule::WideEnd, pair && met.base + first_operand(bytes) <= largest);
            reached.hit(Rule::PastSixtyFour, list.size == 8);
            reached.hit(Rule::PastThirtyTwo, list.size == 4);
        }
        _ => {}
    }
    if matches!(met.fault, 7 | 10 | 11) && by_index && first_operand_ends(bytes) {
        let start = u128::from(list.addresses) + first_operand(bytes) * u128::from(list.size);
        reached.hit(Rule::OperandFirst, start + u128::from(list.size) > sections.addresses.len() as u128);
    }
    if let Some((range, dead)) = met.range {
        reached.hit(Rule::DeadBase, dead && pair && met.base == largest);
        reached.hit(Rule::DeadSum, dead && pair && met.base != largest);
        reached.hit(Rule::DeadStart, dead && matches!(met.kind, Some(rnglists::START_END | rnglists::START_LENGTH)));
        reached.hit(Rule::DeadIndex, dead && by_index);
        reached.hit(Rule::LastEnd, !dead && u128::from(range.end) == largest);
        reached.hit(Rule::LessOne, !dead && u128::from(range.begin) == largest - 1);
        reached.hit(Rule::Backwards, range.begin > range.end);
        reached.hit(Rule::EmptyInList, !dead && range.begin == range.end);
        reached.hit(Rule::OddPlace, by_index && list.addresses % u64::from(list.size) != 0);
        let padded = bytes.windows(9).any(|nine| nine.iter().all(|byte| *byte == 0x80));
        reached.hit(Rule::PaddedOperand, padded && !matches!(met.kind, Some(rnglists::START_END)));
    }
}

/// The first LEB128 operand behind the kind, as far as it goes.
fn first_operand(bytes: &[u8]) -> u128 {
    let operand = bytes.iter().skip(1).take(1 + bytes.iter().skip(1).take_while(|byte| **byte & 0x80 != 0).count());
    operand.take(10).enumerate().fold(0, |value, (place, byte)| value | u128::from(byte & 0x7f) << (7 * place))
}

fn first_operand_ends(bytes: &[u8]) -> bool {
    bytes.iter().skip(1).take(10).any(|byte| byte & 0x80 == 0)
}
