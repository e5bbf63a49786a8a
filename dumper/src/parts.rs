//! Lean sheets: of the unit that is asked for only some subprograms and what their imports read, for an import without call sites. A unit that passes a
//! limit is imported in parts, each with some of its subprograms; a record is judged by itself, so the records are those of the whole unit.

use std::ops::Range;

use crate::dump::{INLINED, SUBPROGRAM};
use crate::lines::{Row, PLAIN};
use crate::unit::{Decoded, Entry, Source};

/// Some subprograms of a unit, with all that is below them.
pub struct Part {
    /// Of each entry of the unit, whether it is read for itself and not for a reference to it: subprograms that have code, inlined entries below these.
    owned: Vec<bool>,
    /// Where the subprograms lie, ascending, as far as that can be read.
    ranges: Vec<(u64, u64)>,
    /// Whether they are all that the unit has.
    all: bool,
}

/// The places of the entries of each subprogram that has code and is below no other such.
pub fn subprograms(decoded: &Decoded) -> Vec<Range<usize>> {
    let entries = &decoded.entries;
    let mut all: Vec<Range<usize>> = Vec::new();
    let mut open = None;
    for (place, entry) in entries.iter().enumerate() {
        if open.is_some_and(|depth| entry.depth > depth) {
            if let Some(last) = all.last_mut() {
                last.end = place + 1;
            }
        } else if is_live(entry) {
            open = Some(entry.depth);
            all.push(place..place + 1);
        } else {
            open = None;
        }
    }
    all
}

fn is_live(entry: &Entry) -> bool {
    entry.tag == SUBPROGRAM && entry.has_code
}

impl Part {
    /// The part of a unit with these subprograms; where they are not all of them, rows that they can't take are left out too.
    pub fn new(
        source: &Source,
        decoded: &Decoded,
        subprograms: &[Range<usize>],
        all: bool,
    ) -> Self {
        let mut owned = vec![false; decoded.entries.len()];
        let mut ranges = Vec::new();
        for place in subprograms.iter().cloned().flatten() {
            let entry = &decoded.entries[place];
            owned[place] = is_live(entry) || entry.tag == INLINED;
            if is_live(entry) {
                ranges.extend(ranges_of(source, decoded, entry));
            }
        }
        ranges.sort_unstable();
        Part { owned, ranges, all }
    }

    pub fn owns(&self, place: usize) -> bool {
        self.owned[place]
    }

    /// No fewer fields are in its main sheet: an entry's own, one for each attribute, one for a range.
    pub fn least_fields(&self, decoded: &Decoded) -> usize {
        let entries = decoded.entries.iter().zip(&self.owned);
        let fields = |entry: &Entry| 1 + entry.attributes.len() + usize::from(entry.has_code);
        entries
            .filter(|(_, owned)| **owned)
            .map(|(entry, _)| fields(entry))
            .sum()
    }

    pub fn ranges(&self) -> &[(u64, u64)] {
        &self.ranges
    }

    /// Which rows the subprograms can take: those inside them, and the one before each start. The first row of each sequence and its end stay, so that
    /// the sequences do; and, before version 5, rows of file 0, by which the import learns of it.
    pub fn keeps(&self, rows: &[Row], version: u16) -> Vec<bool> {
        if self.all {
            return vec![true; rows.len()];
        }
        let ranges = &self.ranges;
        let mut first = true;
        let mut kept = Vec::with_capacity(rows.len());
        // The largest end of the ranges up to each, since ranges may overlap.
        let mut reached = 0;
        let ends: Vec<u64> = ranges
            .iter()
            .map(|range| {
                reached = reached.max(range.1);
                reached
            })
            .collect();
        for (place, row) in rows.iter().enumerate() {
            let next = rows.get(place + 1).map_or(row.address, |next| next.address);
            // Those that begin at or before the next row; of them some reach past this one.
            let near = ranges.partition_point(|range| range.0 <= next);
            let taken = near > 0 && ends[near - 1] > row.address;
            let zero = version < 5 && row.file == 0;
            kept.push(first || row.kind != PLAIN || zero || next < row.address || taken);
            first = row.kind != PLAIN;
        }
        kept
    }
}

fn ranges_of(source: &Source, decoded: &Decoded, entry: &Entry) -> Vec<(u64, u64)> {
    let mut found = Vec::new();
    let Ok(die) = decoded.unit.entry(gimli::UnitOffset(entry.offset as usize)) else {
        return found;
    };
    if let Ok(mut ranges) = source.dwarf.die_ranges(&decoded.unit, &die) {
        while let Ok(Some(range)) = ranges.next() {
            found.push((range.begin, range.end));
        }
    }
    found
}

/// Which entries a lean sheet has: the first, those that can be read, and every ancestor of
/// these, so that each has the parent that it has in the unit.
pub fn kept(entries: &[Entry], readable: impl Fn(&Entry) -> bool) -> Vec<bool> {
    let deepest = entries.iter().map(|entry| entry.depth).max().unwrap_or(0);
    let mut wanted = vec![false; deepest as usize + 1];
    let mut kept = vec![false; entries.len()];
    // From the end: the parent of an entry is the first one met that is one depth less.
    for (place, entry) in entries.iter().enumerate().rev() {
        let depth = entry.depth as usize;
        if place == 0 || wanted[depth] || readable(entry) {
            kept[place] = true;
            wanted[depth] = false;
            if depth > 0 {
                wanted[depth - 1] = true;
            }
        }
    }
    kept
}
