//! Units with their entries and ranges, settled before any field is written.

use super::LAST;
use crate::compose::*;
use crate::random::Random;

/// What is settled of a unit before its fields are written, so that references can point to it.
pub struct Unit {
    pub(super) offset: u64,
    pub(super) length: u64,
    pub(super) entries: Vec<Entry>,
}

pub(super) struct Entry {
    pub(super) offset: u64,
    pub(super) depth: u16,
    pub(super) tag: u16,
    pub(super) ranges: Vec<(u64, u64)>,
}

/// So many units, fewer at the end of the offsets.
pub fn units_of(random: &mut Random, odd: u64, count: fn(&mut Random) -> u64) -> Vec<Unit> {
    let mut offset = if random.chance(odd) { LAST - random.pick(&[1000, 300]) } else { random.pick(&[0, 0, 0, 11]) };
    let mut units: Vec<Unit> = Vec::new();
    for _ in 0..count(random) {
        let entries = entries(random, odd);
        let length = entries.last().map_or(0, |entry| entry.offset + random.pick(&[1, 4, 20]));
        if offset > LAST - length - 8 {
            break;
        }
        units.push(Unit { offset, length, entries });
        offset += length + random.pick(&[0, 0, 0, 5]);
    }
    units
}

/// The entries of a unit: subprograms, with blocks, inlined entries, call sites and subprograms below them.
fn entries(random: &mut Random, odd: u64) -> Vec<Entry> {
    let mut entries: Vec<Entry> = Vec::new();
    // Offsets are few, so that those of the two inputs meet.
    let mut offset = random.pick(&[1, 1, 11]);
    for number in 0..random.pick(&[0, 2, 4, 6, 9, 12, 16, 20]) {
        let last = entries.last().map_or(0, |entry| entry.depth);
        let depth = match number {
            0 => 0,
            _ if random.chance(60) => last + 1,
            _ if random.chance(60) => last.max(1),
            _ => random.between(1, u64::from(last) + 1) as u16,
        };
        let tag = match (depth, random.below(100)) {
            (0, _) => COMPILE_UNIT,
            (1, 0..80) | (_, 0..10) => SUBPROGRAM,
            (_, 80..) => CALL_SITE,
            (_, 70..) => BLOCK,
            _ => INLINED,
        };
        let ranges = match tag {
            SUBPROGRAM => function_ranges(random, odd),
            INLINED => inner_ranges(random, &entries, depth),
            _ => Vec::new(),
        };
        entries.push(Entry { offset, depth, tag, ranges });
        offset += random.pick(&[1, 4, 4, 4, 9]);
    }
    entries
}

fn function_ranges(random: &mut Random, odd: u64) -> Vec<(u64, u64)> {
    let mut ranges = Vec::new();
    for _ in 0..random.pick(&[1, 1, 1, 2, 2, 3, 0]) {
        let start = random.pick(&[0x1000, 0x1010, 0x1018, 0x1020, 0x1040, 0x1ff0]);
        ranges.push((start, start + random.pick(&[0x10, 0x20, 0x40])));
        if random.chance(4 + 3 * odd) {
            let start = random.pick(&[0, 0, 8, 0x1000, 0x3000, LAST, LAST - 1]);
            ranges.push((start, start.saturating_add(random.pick(&[0, 0x10, 0x2000, 0xffff_ffff, 0x1_0000_0000]))));
        }
        if random.chance(odd) {
            ranges.push((random.pick(&[0x1010, 0x1020]), random.pick(&[0x1000, 0x1010, 0])));
        }
    }
    ranges
}

/// Ranges inside those of an entry above, most often the nearest that has some: apart, touching, overlapping,
/// across two of them, and some outside.
fn inner_ranges(random: &mut Random, entries: &[Entry], mut depth: u16) -> Vec<(u64, u64)> {
    let mut above = Vec::new();
    for entry in entries.iter().rev() {
        if entry.depth < depth {
            depth = entry.depth;
            above.push(&entry.ranges);
        }
    }
    above.retain(|ranges| !ranges.is_empty());
    if above.is_empty() {
        return Vec::new();
    }
    let outer = above[if random.chance(85) { 0 } else { random.place(&above) }];
    let mut ranges = Vec::new();
    for _ in 0..random.pick(&[1, 1, 1, 1, 2, 2, 0]) {
        let (start, end) = random.pick(outer);
        let size = end.saturating_sub(start).clamp(1, 0x40);
        let mut cuts = [0; 4].map(|_| start.saturating_add(random.below(size)));
        cuts.sort_unstable();
        let [a, b, c, d] = cuts;
        match random.below(20) {
            0..5 => ranges.push((a, d + 1)),
            5..8 => ranges.extend([(a, b), (b, d)]),
            8..10 => ranges.extend([(a, c), (b, d + 1)]),
            10..12 => ranges.extend([(a, b), (c, d + 1)]),
            12 => ranges.extend([(start, end), (start, end)]),
            13 => ranges.push((start, end)),
            14 => ranges.push((a, end.saturating_add(4))),
            15..18 => ranges.push((random.pick(outer).0, random.pick(outer).1)),
            18 => ranges.extend([(start.saturating_sub(4), b), (b, end)]),
            _ => ranges.push((random.pick(&[a, d]), a)),
        }
    }
    random.shuffle(&mut ranges);
    ranges
}
