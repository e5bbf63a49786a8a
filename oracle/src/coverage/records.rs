//! The ranges of subprograms, and the records with their inlined entries.

use super::rows::{Rows, function_rows};
use super::{Data, Reached, Rule, Value};
use crate::case::Case;
use crate::compose::*;
use crate::model::{AddressRange, Function, InlineNode};
use crate::stand_in::gimli::{Dwarf, EntryData, Slice};
use crate::trace::Event;

// ---- ranges of subprograms

pub fn tombstones(dwarf: &Dwarf<Slice<'_>>, unit: &Data<'_>, events: &[Event], reached: &mut Reached) {
    let text = |holds: &dyn Fn(AddressRange) -> bool| unit.text.iter().any(|range| holds(AddressRange::new(range.begin, range.end)));
    for event in events {
        let Event::Ranges { entry } = event else { continue };
        let entry = &unit.entries[*entry];
        for (range, flagged) in dwarf.ranges_of(entry).0.into_iter().filter(|_| entry.tag.0 == SUBPROGRAM) {
            let outside = !text(&|text| text.contains(range.begin));
            reached.hit(Rule::ZeroOutside, range.begin == 0 && outside);
            reached.hit(Rule::TombstoneOutside, flagged && range.begin != 0 && outside);
            let live = range.begin < range.end && text(&|text| text.contains_range(AddressRange::new(range.begin, range.end)));
            reached.hit(Rule::TombstoneInText, (flagged || range.begin == 0) && live);
        }
    }
}

// ---- records

/// Judges each record by document 01's words, and counts its nodes against the Rust's.
pub fn records(
    case: &Case,
    dwarf: &Dwarf<Slice<'_>>,
    unit: &Data<'_>,
    functions: &[Function],
    events: &[Event],
    rows: &Rows,
    reached: &mut Reached,
) -> Result<(), String> {
    // The subprogram of each record, and the named inlined entries below it. Without details nothing is walked.
    let mut walks: Vec<(usize, Vec<usize>)> = Vec::new();
    for event in events {
        match (event, walks.last_mut()) {
            (&Event::Walk { entry }, _) => walks.push((entry, Vec::new())),
            (&Event::Ranges { entry }, Some(walk)) if unit.entries[entry].tag.0 == INLINED => walk.1.push(entry),
            _ => {}
        }
    }
    let mut last = None;
    for ((root, named), function) in walks.iter().zip(functions) {
        function_rows(unit, &unit.entries[*root], function, rows, reached)?;
        let kept = walk(dwarf, unit, *root, named, function.range, reached);
        let nodes = function.inline.as_ref().map_or(0, |root| count(root) - 1);
        if case.inlines && kept != nodes {
            return Err(format!("{kept} inlined entries are kept by document 01's words, and the Rust has {nodes} nodes"));
        }
        reached.hit(Rule::ByItself, last.is_some_and(|(before, number)| before == *root && number != nodes));
        last = Some((*root, nodes));
    }
    Ok(())
}

fn count(node: &InlineNode) -> usize {
    1 + node.children.iter().map(count).sum::<usize>()
}

/// An open entry of a walk.
struct Open<'e, 'a> {
    entry: &'e EntryData<Slice<'a>>,
    /// The merged ranges of a kept inlined entry.
    merged: Option<Vec<AddressRange>>,
    /// Its own ranges that lie inside.
    inside: Vec<AddressRange>,
}

/// The number of kept inlined entries below a subprogram, for a record of this range.
fn walk(dwarf: &Dwarf<Slice<'_>>, unit: &Data<'_>, root: usize, named: &[usize], function: AddressRange, reached: &mut Reached) -> usize {
    let mut open: Vec<Open<'_, '_>> = Vec::new();
    let mut kept = 0;
    let site = |entry: &EntryData<Slice<'_>>| {
        entry.tag.0 == CALL_SITE && matches!(entry.attribute(RETURN_PC), Some(Value::Addr(address)) if function.contains(*address))
    };
    for (place, entry) in unit.entries.iter().enumerate().skip(root + 1).take_while(|(_, entry)| entry.depth > unit.entries[root].depth) {
        while open.last().is_some_and(|last| last.entry.depth >= entry.depth) {
            open.pop();
        }
        reached.hit(Rule::Innermost, site(entry) && open.iter().any(|above| site(above.entry)));
        let mut opened = Open { entry, merged: None, inside: Vec::new() };
        if entry.tag.0 == INLINED {
            let nearest = open.iter().rposition(|above| above.merged.is_some());
            let outer = nearest.and_then(|place| open[place].merged.clone()).unwrap_or_else(|| vec![function]);
            let all: Vec<(AddressRange, bool)> =
                dwarf.ranges_of(entry).0.into_iter().map(|(range, flag)| (AddressRange::new(range.begin, range.end), flag)).collect();
            let lies = |range: AddressRange| range.start < range.end && outer.iter().any(|outer| outer.contains_range(range));
            let inside: Vec<AddressRange> = all.iter().map(|range| range.0).filter(|&range| lies(range)).collect();
            let across = |range: AddressRange| {
                let holds = |address: u64| outer.iter().position(|outer| outer.contains(address));
                range.start < range.end && holds(range.start).zip(holds(range.end - 1)).is_some_and(|(a, b)| a != b)
            };
            let name = named.contains(&place);
            reached.hit(Rule::Nameless, !name && !inside.is_empty());
            reached.hit(Rule::Outside, name && !all.is_empty() && inside.is_empty());
            reached.hit(Rule::AcrossTwo, name && all.iter().any(|range| across(range.0)));
            if name && !inside.is_empty() {
                kept += 1;
                let between = &open[nearest.map_or(0, |place| place + 1)..];
                reached.hit(Rule::BelowPassedOver, between.iter().any(|above| above.entry.tag.0 == INLINED));
                reached.hit(Rule::NestedSubprogram, open.iter().any(|above| above.entry.tag.0 == SUBPROGRAM));
                reached.hit(Rule::SomeInside, all.iter().any(|range| range.0.start < range.0.end && !lies(range.0)));
                reached.hit(Rule::EmptyRange, all.iter().any(|range| range.0.start == range.0.end && outer[0].contains(range.0.start)));
                reached.hit(Rule::InlinedTombstone, all.iter().any(|&(range, flag)| flag && lies(range)));
                let joined = |range: &AddressRange| {
                    nearest.is_some_and(|place| !open[place].inside.iter().any(|outer| outer.contains_range(*range)))
                };
                reached.hit(Rule::InsideMerged, inside.iter().any(joined));
                opened.merged = Some(merged(&inside, reached));
                opened.inside = inside;
            }
        }
        open.push(opened);
    }
    kept
}

fn merged(ranges: &[AddressRange], reached: &mut Reached) -> Vec<AddressRange> {
    let mut sorted = ranges.to_vec();
    sorted.sort_unstable();
    let mut merged: Vec<AddressRange> = Vec::new();
    for range in sorted {
        match merged.last_mut() {
            Some(last) if range.start <= last.end => {
                reached.hit(if range.start == last.end { Rule::Touching } else { Rule::Overlapping }, true);
                last.end = last.end.max(range.end);
            }
            _ => merged.push(range),
        }
    }
    reached.hit(Rule::Apart, merged.len() > 1);
    merged
}
