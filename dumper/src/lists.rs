//! Range lists that are left to the import (document 02, E9): which part of .debug_rnglists and of
//! .debug_addr a unit is lent, and an entry's field 1f.

use std::ops::Range;

use gimli::{DebuggingInformationEntry, RunTimeEndian, Section, UnitOffset};

use crate::dump::Input;
use crate::fields::{self, Part};
use crate::sheet::is_ranged;
use crate::unit::{Decoded, Slice, Source};

/// The version whose lists have this form.
const VERSION: u16 = 5;
/// What begins the length of a contribution in the 64-bit form of DWARF.
const WIDE_LENGTH: u64 = 0xffff_ffff;

/// What a unit is lent of both sections, and what its fields say of them.
pub struct Lists<'a> {
    pub lists: &'a [u8],
    pub addresses: &'a [u8],
    /// Where the lent part begins in the list section.
    start: usize,
    /// Where the unit's addresses begin in the lent part of the table.
    place: usize,
    base: u64,
    size: u8,
}

impl<'a> Lists<'a> {
    /// Field 1f of an entry that names a list; none where its offset can't be had.
    pub fn field(
        &self,
        source: &Source<'a>,
        decoded: &Decoded<'a>,
        offset: u64,
    ) -> Option<[Part<'static>; 4]> {
        let die = decoded.unit.entry(UnitOffset(offset as usize)).ok()?;
        let offset = list_offset(source, decoded, &die)?;
        // A place outside what is lent is past its end.
        let place = offset.checked_sub(self.start).unwrap_or(usize::MAX);
        Some([
            Part::U64(place as u64),
            Part::U64(self.base),
            Part::U64(self.place as u64),
            Part::U8(self.size),
        ])
    }
}

impl<'a> Input<'a> {
    /// The lists of a unit: its own contributions, or both sections where all units share them.
    /// None of a unit of another version, with addresses of another size or in the other byte
    /// order, or where a section is too long: its ranges stand in fields.
    pub fn lists(&self, index: usize, shared: bool) -> Result<Option<Lists<'a>>, String> {
        let decoded = self.main.unit(index)?;
        let encoding = decoded.unit.encoding();
        let (lists, addresses) = sections(&self.main);
        let little = self.main.endian() == RunTimeEndian::Little;
        let known = little && encoding.version == VERSION && matches!(encoding.address_size, 4 | 8);
        if !self.lists || !known {
            return Ok(None);
        }
        let base = decoded.unit.addr_base.0;
        let (mut part, mut table) = (0..lists.len(), 0..addresses.len());
        if !shared {
            part = self.contribution(decoded, lists);
            table = holding(addresses, &[base]).unwrap_or(table);
        }
        if part.len().max(table.len()) > fields::PROGRAM_LIMIT {
            return Ok(None);
        }
        Ok(Some(Lists {
            start: part.start,
            place: base.checked_sub(table.start).unwrap_or(usize::MAX),
            lists: &lists[part],
            addresses: &addresses[table],
            base: decoded.unit.low_pc,
            size: encoding.address_size,
        }))
    }

    /// The contributions that hold the unit's lists; all where one is in none.
    fn contribution(&self, decoded: &Decoded<'a>, lists: &[u8]) -> Range<usize> {
        let mut offsets = Vec::new();
        for entry in decoded.entries.iter().filter(|entry| is_ranged(entry)) {
            let die = decoded.unit.entry(UnitOffset(entry.offset as usize));
            let offset = die
                .ok()
                .and_then(|die| list_offset(&self.main, decoded, &die));
            offsets.extend(offset);
        }
        if offsets.is_empty() {
            return 0..0;
        }
        holding(lists, &offsets).unwrap_or(0..lists.len())
    }
}

/// Both sections of a file.
fn sections<'a>(source: &Source<'a>) -> (&'a [u8], &'a [u8]) {
    let lists = source.dwarf.ranges.debug_rnglists().reader().slice();
    (lists, source.dwarf.debug_addr.reader().slice())
}

/// Where the list of an entry begins in the section, as the decoder finds it: what stands before
/// the attribute must be sound.
fn list_offset(
    source: &Source,
    decoded: &Decoded,
    die: &DebuggingInformationEntry<Slice>,
) -> Option<usize> {
    let mut attributes = die.attrs();
    while let Some(attribute) = attributes.next().ok()? {
        let value = attribute.value();
        match attribute.name() {
            gimli::DW_AT_low_pc => _ = source.dwarf.attr_address(&decoded.unit, value).ok()??,
            gimli::DW_AT_high_pc if value.udata_value().is_none() => {
                _ = source.dwarf.attr_address(&decoded.unit, value).ok()??;
            }
            gimli::DW_AT_ranges => {
                let offset = source.dwarf.attr_ranges_offset(&decoded.unit, value).ok()?;
                return offset.map(|offset| offset.0);
            }
            _ => {}
        }
    }
    None
}

/// The contributions to a section, from the first to the last that holds one of these places; none
/// where a place is in none. Each begins with its length.
fn holding(section: &[u8], places: &[usize]) -> Option<Range<usize>> {
    let (mut at, mut held, mut found) = (0, 0, None::<Range<usize>>);
    while at < section.len() && held < places.len() {
        let number = |size: usize, at: usize| {
            let bytes = section.get(at..at + size)?;
            Some(
                bytes
                    .iter()
                    .rev()
                    .fold(0, |value, byte| value << 8 | u64::from(*byte)),
            )
        };
        let (head, length) = match number(4, at)? {
            WIDE_LENGTH => (12, number(8, at + 4)?),
            length => (4, length),
        };
        let end = usize::try_from(length).ok()?.checked_add(at + head)?;
        let here = places
            .iter()
            .filter(|place| (at..end).contains(place))
            .count();
        if end > section.len() {
            return None;
        }
        if here > 0 {
            found = Some(found.map_or(at, |found| found.start)..end);
        }
        (at, held) = (end, held + here);
    }
    found.filter(|_| held == places.len())
}
