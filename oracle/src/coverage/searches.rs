//! Searches of names and declarations: what was asked of entries, and what was followed.

use super::{Data, Reached, Rule, Value};
use crate::compose::*;
use crate::stand_in::gimli::{DebugInfoOffset, Dwarf, Slice, UnitOffset};
use crate::trace::Event;

fn units<'d, 'a>(dwarf: &'d Dwarf<Slice<'a>>, supplementary: bool) -> &'d [std::rc::Rc<Data<'a>>] {
    match (supplementary, &dwarf.sup) {
        (false, _) => &dwarf.units,
        (true, sup) => sup.as_ref().map_or(&[], |sup| &sup.units),
    }
}

/// Where in its section an entry that was followed stands, if it is one.
fn followed(dwarf: &Dwarf<Slice<'_>>, event: Option<&Event>) -> Option<(bool, usize)> {
    match event {
        Some(&Event::Follow { supplementary, unit, entry }) => {
            let unit = &units(dwarf, supplementary)[unit];
            Some((supplementary, unit.offset + unit.entries[entry].offset))
        }
        _ => None,
    }
}

pub fn searches(dwarf: &Dwarf<Slice<'_>>, events: &[Event], reached: &mut Reached) {
    // What the search that is under way has followed.
    let mut trail: Vec<(bool, usize)> = Vec::new();
    for (place, event) in events.iter().enumerate() {
        let next = events.get(place + 1);
        if let Some(target) = followed(dwarf, Some(event)) {
            trail.push(target);
            last_target(&events[place + 1..], reached);
        }
        let &Event::Attribute { supplementary, unit, entry, name } = event else {
            continue;
        };
        // A search begins where a first question is not about an entry that was just followed.
        let begins = name == LINKAGE_NAME || name == DECL_FILE;
        let before = events[..place].iter().rev().find(|event| !matches!(event, Event::Text { .. }));
        if begins && !matches!(before, Some(Event::Follow { .. })) {
            trail.clear();
        }
        let unit = &units(dwarf, supplementary)[unit];
        let Some(value) = unit.entries[entry].attribute(name) else {
            continue;
        };
        if let Some(Event::Text { empty }) = next {
            names(name, supplementary, *empty, reached);
        }
        if [ORIGIN, SPECIFICATION, CALL_ORIGIN].contains(&name) {
            reached.hit(Rule::Origin, name == ORIGIN && followed(dwarf, next).is_some());
            reached.hit(Rule::Specification, name == SPECIFICATION && followed(dwarf, next).is_some());
            reached.hit(Rule::SupplementaryThere, supplementary && matches!(value, Value::DebugInfoRefSup(_)));
            // The last question may have been refused.
            if next.is_some() {
                reference(dwarf, supplementary, unit, value, followed(dwarf, next), &trail, reached);
            }
        }
    }
}

fn names(name: u16, supplementary: bool, empty: bool, reached: &mut Reached) {
    let rule = match name {
        LINKAGE_NAME => Rule::LinkageName,
        MIPS_LINKAGE_NAME => Rule::MipsName,
        NAME => Rule::PlainName,
        _ => return,
    };
    reached.hit(if empty { Rule::EmptyName } else { rule }, true);
    reached.hit(if supplementary { Rule::SupplementaryName } else { Rule::MainName }, !empty);
}

/// After an entry that was followed, and perhaps its unit's files, comes a question about it, or it is the 64th.
fn last_target(after: &[Event], reached: &mut Reached) {
    let texts = after.iter().take_while(|event| matches!(event, Event::Text { .. })).count();
    let asked = matches!(after.get(texts), Some(Event::Attribute { name: LINKAGE_NAME | DECL_FILE, .. }));
    if !asked && after.len() > texts {
        reached.hit(Rule::LastTarget, true);
        reached.hit(Rule::LastTargetFiles, texts > 0);
    }
}

/// A reference that was asked for, and what was followed right after.
fn reference(
    dwarf: &Dwarf<Slice<'_>>,
    supplementary: bool,
    unit: &Data<'_>,
    value: &Value<'_>,
    next: Option<(bool, usize)>,
    trail: &[(bool, usize)],
    reached: &mut Reached,
) {
    let (there, target) = match *value {
        Value::UnitRef(UnitOffset(offset)) => (supplementary, unit.offset.wrapping_add(offset)),
        Value::DebugInfoRef(DebugInfoOffset(offset)) => (supplementary, offset),
        Value::DebugInfoRefSup(DebugInfoOffset(offset)) if !supplementary => (true, offset),
        _ => return,
    };
    let by_section = supplementary && matches!(value, Value::DebugInfoRef(_));
    let starts = |unit: &Data<'_>| unit.entries.iter().any(|entry| unit.offset + entry.offset == target);
    reached.hit(Rule::SectionThere, by_section && next == Some((true, target)));
    if next != Some((there, target)) && units(dwarf, there).iter().any(|unit| starts(unit)) {
        reached.hit(Rule::Once, true);
        reached.hit(Rule::RememberedAsMain, by_section && trail.contains(&(false, target)) && !trail.contains(&(true, target)));
    }
}
