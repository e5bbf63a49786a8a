//! Entries: what the parser fills, and what the decoder answers at a place among them.

use std::rc::Rc;

use super::{AttributeValue, DwAt, DwTag, Error, Range, Reader, Result, UnitData, UnitOffset};
use crate::rnglists::RangeList;
use crate::trace::{Event, trace};

pub struct EntryData<R: Reader> {
    pub offset: usize,
    pub depth: isize,
    pub tag: DwTag,
    pub attributes: Vec<(DwAt, AttributeValue<R>)>,
    pub ranges: Vec<(Range, bool)>,
    /// Whether it comes after the ranges, and the reason.
    pub failure: Option<(bool, R)>,
    /// Where its ranges are, in place of both (E9).
    pub list: Option<RangeList>,
}

impl<R: Reader> EntryData<R> {
    /// Of equal names the first counts.
    pub fn attribute(&self, name: u16) -> Option<&AttributeValue<R>> {
        self.attributes.iter().find(|attribute| attribute.0.0 == name).map(|attribute| &attribute.1)
    }
}

/// A place among a unit's entries.
#[derive(Clone)]
pub struct EntriesRaw<'a, R: Reader> {
    pub(super) unit: &'a Rc<UnitData<R>>,
    pub(super) next: usize,
    pub(super) current: DebuggingInformationEntry<R>,
}

impl<'a, R: Reader> EntriesRaw<'a, R> {
    answers! { is_empty(&self) -> bool = self.next >= self.unit.entries.len(); }

    pub fn read_abbreviation(&mut self) -> Result<Option<&'a EntryData<R>>> {
        self.next += 1;
        Ok(self.unit.entries.get(self.next - 1))
    }

    pub fn read_attribute_inline(&mut self, _specification: AttributeSpecification) -> Result<AttributeValue<R>> {
        Ok(AttributeValue::Failed)
    }

    pub fn read_entry(&mut self, entry: &mut DebuggingInformationEntry<R>) -> Result<()> {
        *entry = DebuggingInformationEntry { unit: Some(Rc::clone(self.unit)), index: self.next };
        self.next += 1;
        Ok(())
    }

    pub fn next_dfs(&mut self) -> Result<Option<&DebuggingInformationEntry<R>>> {
        if self.is_empty() {
            return Ok(None);
        }
        self.current = DebuggingInformationEntry { unit: Some(Rc::clone(self.unit)), index: self.next };
        self.next += 1;
        Ok(Some(&self.current))
    }
}

#[derive(Clone, Copy)]
pub struct AttributeSpecification;

/// An entry's abbreviation, as next_subprogram reads it.
impl<R: Reader> EntryData<R> {
    answers! {
        tag(&self) -> DwTag = self.tag;
        // Passing over an entry cannot fail: a failed value counts only where it is asked for.
        attributes(&self) -> &[AttributeSpecification] = &[];
    }
}

#[derive(Clone)]
pub struct DebuggingInformationEntry<R: Reader> {
    unit: Option<Rc<UnitData<R>>>,
    pub(super) index: usize,
}

impl<R: Reader> Default for DebuggingInformationEntry<R> {
    fn default() -> Self {
        Self::null()
    }
}

impl<R: Reader> DebuggingInformationEntry<R> {
    pub fn null() -> Self {
        Self { unit: None, index: 0 }
    }

    pub(super) fn data(&self) -> Result<&EntryData<R>> {
        self.unit.as_ref().and_then(|unit| unit.entries.get(self.index)).ok_or(Error::NoEntryAtGivenOffset(0))
    }

    answers! {
        is_null(&self) -> bool = self.data().is_err();
        offset(&self) -> UnitOffset<usize> = UnitOffset(self.data().map_or(0, |entry| entry.offset));
        depth(&self) -> isize = self.data().map_or(0, |entry| entry.depth);
        tag(&self) -> DwTag = self.data().map_or(DwTag(0), |entry| entry.tag);
    }

    pub fn attr_value(&self, name: DwAt) -> Option<AttributeValue<R>> {
        let unit = self.unit.as_ref()?;
        trace(|| Event::Attribute { supplementary: unit.supplementary, unit: unit.number, entry: self.index, name: name.0 });
        self.data().ok()?.attribute(name.0).cloned()
    }
}
