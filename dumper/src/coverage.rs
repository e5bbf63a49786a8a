//! Where a unit's code lies, from its root, with as little decoded as can be.

use crate::unit::{Slice, Source};

/// Where a unit's code lies.
pub struct Coverage {
    pub ranges: Vec<(u64, u64)>,
    /// False where a range can't be read: the unit may hold any address.
    known: bool,
}

impl Coverage {
    /// The ranges of the unit's root or, where it has none, those of its subprograms.
    pub fn of(source: &Source, number: usize) -> Self {
        let mut coverage = Coverage {
            ranges: Vec::new(),
            known: true,
        };
        let Ok(unit) = source.root(number) else {
            coverage.known = false;
            return coverage;
        };
        coverage.add(source.dwarf.unit_ranges(&unit));
        if !coverage.known || !coverage.ranges.is_empty() {
            return coverage;
        }
        let mut entries = unit.entries();
        loop {
            match entries.next_dfs() {
                Ok(Some((_, entry))) if entry.tag() == gimli::DW_TAG_subprogram => {
                    coverage.add(source.dwarf.die_ranges(&unit, entry));
                }
                Ok(Some(_)) => (),
                Ok(None) => return coverage,
                Err(_) => {
                    coverage.known = false;
                    return coverage;
                }
            }
        }
    }

    fn add<'a>(&mut self, ranges: gimli::Result<gimli::RangeIter<Slice<'a>>>) {
        let Ok(mut ranges) = ranges else {
            self.known = false;
            return;
        };
        loop {
            match ranges.next() {
                Ok(Some(range)) if range.begin < range.end => {
                    self.ranges.push((range.begin, range.end));
                }
                Ok(Some(_)) => (),
                Ok(None) => return,
                Err(_) => {
                    self.known = false;
                    return;
                }
            }
        }
    }

    /// Whether some of the addresses, which ascend, may lie here; any, where none are given.
    pub fn may_hold(&self, asked: Option<&[u64]>) -> bool {
        let Some(asked) = asked else {
            return !self.known || !self.ranges.is_empty();
        };
        let holds = |&(start, end): &(u64, u64)| {
            let next = asked.partition_point(|address| *address < start);
            asked.get(next).is_some_and(|address| *address < end)
        };
        !self.known || self.ranges.iter().any(holds)
    }
}
