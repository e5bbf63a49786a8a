//! Offsets and the values of attributes.

use super::{Reader, UnitData};

newtypes! { UnitOffset<T>(T); UnitSectionOffset<T>(T); DebugInfoOffset<T>(T); DebugLineOffset<T>(T); }

#[derive(Clone, Copy, Debug, Eq, Hash, PartialEq)]
pub enum SectionId {
    DebugInfo,
}

impl DebugInfoOffset<usize> {
    pub fn to_unit_offset<R: Reader>(self, unit: &UnitData<R>) -> Option<UnitOffset<usize>> {
        let offset = self.0.checked_sub(unit.offset)?;
        (offset < unit.length).then_some(UnitOffset(offset))
    }
}

#[derive(Clone, Debug)]
pub enum AttributeValue<R: Reader> {
    Udata(u64),
    FileIndex(u64),
    String(R),
    UnitRef(UnitOffset<usize>),
    DebugInfoRef(DebugInfoOffset<usize>),
    DebugInfoRefSup(DebugInfoOffset<usize>),
    SecOffset(usize),
    DebugLineRef(DebugLineOffset<usize>),
    Addr(u64),
    Failed,
    /// No input has one; the Rust's text asks for it.
    #[allow(dead_code)]
    DebugStrRefSup(()),
}

impl<R: Reader> AttributeValue<R> {
    pub fn udata_value(&self) -> Option<u64> {
        match self {
            Self::Udata(value) => Some(*value),
            _ => None,
        }
    }
}
