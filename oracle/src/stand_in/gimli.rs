//! gimli, answered from a parsed input. What it answers for each kind of attribute, for failed values,
//! tombstones, range failures, file 0 and missing entries is document 01's.

use std::borrow::Cow;
use std::fmt;
use std::marker::PhantomData;
use std::rc::Rc;

use crate::rnglists::{Cursor, Sections};
use crate::trace::{Event, trace};

/// Methods that give a value and can do no more.
macro_rules! answers {
    ($($name:ident(&$self:ident) -> $type:ty = $value:expr;)+) => { $(pub fn $name(&$self) -> $type { $value })+ };
}

macro_rules! newtypes {
    ($($name:ident$(<$parameter:ident>)?($inner:ident);)+) => { $(
        #[derive(Clone, Copy, Debug, Eq, Hash, PartialEq)]
        pub struct $name$(<$parameter>)?(pub $inner);
    )+ };
}

mod attributes;
#[allow(non_upper_case_globals)]
pub mod constants;
mod entries;
mod lines;
mod units;

pub use attributes::*;
pub use constants::*;
pub use entries::*;
pub use lines::*;
pub use units::*;

pub type Result<T> = std::result::Result<T, Error>;

#[derive(Clone, Debug)]
pub enum Error {
    NoEntryAtGivenOffset(u64),
    /// A value that the decoder marked failed, or one of a kind that the question does not take.
    Value,
    /// A range failure. Each byte of the input's reason is the character of the same number.
    Ranges(String),
    /// A fault of a program that is run for its rows (E8), by its number.
    Program(u8),
    /// A fault of a range list (E9), by its number, which is its reason too.
    List(u8),
}

impl fmt::Display for Error {
    fn fmt(&self, formatter: &mut fmt::Formatter<'_>) -> fmt::Result {
        match self {
            Self::NoEntryAtGivenOffset(offset) => write!(formatter, "no entry at {offset:#x}"),
            Self::Value => formatter.write_str("failed value"),
            Self::Ranges(reason) => formatter.write_str(reason),
            Self::Program(number) => write!(formatter, "fault {number} of a line program"),
            Self::List(number) => write!(formatter, "{number}"),
        }
    }
}

pub trait Reader: Clone {
    type Offset;
    fn to_slice(&self) -> Result<Cow<'_, [u8]>>;
}

#[derive(Clone, Copy, Debug)]
pub struct Slice<'a>(pub &'a [u8]);

impl Reader for Slice<'_> {
    type Offset = usize;

    fn to_slice(&self) -> Result<Cow<'_, [u8]>> {
        Ok(Cow::Borrowed(self.0))
    }
}

// ---- the inputs

#[derive(Clone, Copy, Debug, Eq, PartialEq)]
pub enum DwarfFileType {
    Main,
    Dwo,
}

#[derive(Clone, Copy, Debug, Eq, PartialEq)]
pub enum Format {
    Dwarf32,
    Dwarf64,
}

impl Format {
    answers! {
        initial_length_size(&self) -> u8 = if *self == Self::Dwarf64 { 12 } else { 4 };
        word_size(&self) -> u8 = if *self == Self::Dwarf64 { 8 } else { 4 };
    }
}

#[derive(Clone, Copy, Debug)]
pub struct Encoding {
    pub format: Format,
    pub version: u16,
}

pub struct Dwarf<R: Reader> {
    pub file_type: DwarfFileType,
    pub debug_line: DebugLine<R>,
    pub units: Vec<Rc<UnitData<R>>>,
    pub sup: Option<Box<Self>>,
    /// The list section and the address table (E9).
    pub lists: R,
    pub addresses: R,
}

impl<R: Reader> Dwarf<R> {
    pub fn new(units: Vec<Rc<UnitData<R>>>, sup: Option<Box<Self>>, lists: R, addresses: R) -> Self {
        Self { file_type: DwarfFileType::Main, debug_line: DebugLine(PhantomData), units, sup, lists, addresses }
    }

    /// The ranges of an entry, from its fields or from its list, and what its list is refused with.
    pub fn ranges_of(&self, entry: &EntryData<R>) -> (Vec<(Range, bool)>, Option<u8>) {
        let Some(list) = entry.list else { return (entry.ranges.clone(), None) };
        let [lists, addresses] = [&self.lists, &self.addresses].map(|section| section.to_slice().expect("a slice that is lent"));
        let (mut cursor, mut ranges) = (Cursor::new(list), Vec::new());
        loop {
            match cursor.next(Sections { lists: &lists, addresses: &addresses }) {
                Ok(Some(range)) => ranges.push(range),
                Ok(None) => return (ranges, None),
                Err(fault) => return (ranges, Some(fault)),
            }
        }
    }

    answers! {
        sup(&self) -> Option<&Self> = self.sup.as_deref();
        units(&self) -> UnitHeaders<'_, R> = UnitHeaders(self.units.iter());
    }

    pub fn unit(&self, header: Rc<UnitData<R>>) -> Result<Unit<R>> {
        Ok(Unit::of(header))
    }

    /// A string only; a failed value and every other kind is an error.
    pub fn attr_string(&self, _unit: &Unit<R>, value: AttributeValue<R>) -> Result<R> {
        let AttributeValue::String(text) = value else {
            return Err(Error::Value);
        };
        trace(|| Event::Text { empty: text.to_slice().is_ok_and(|bytes| bytes.is_empty()) });
        Ok(text)
    }

    /// An address only; a failed value is an error, every other kind is none.
    pub fn attr_address(&self, _unit: &Unit<R>, value: AttributeValue<R>) -> Result<Option<u64>> {
        match value {
            AttributeValue::Addr(address) => Ok(Some(address)),
            AttributeValue::Failed => Err(Error::Value),
            _ => Ok(None),
        }
    }

    pub fn die_ranges(&self, unit: &Unit<R>, entry: &DebuggingInformationEntry<R>) -> Result<RangeIter<R>> {
        trace(|| Event::Ranges { entry: entry.index });
        let data = entry.data()?;
        match &data.failure {
            Some((false, reason)) => Err(range_error(reason)?),
            _ => {
                let list = data.list.map(|list| (Cursor::new(list), self.lists.clone(), self.addresses.clone()));
                Ok(RangeIter { unit: Rc::clone(&unit.header), entry: entry.index, next: 0, list })
            }
        }
    }
}

fn range_error<R: Reader>(reason: &R) -> Result<Error> {
    Ok(Error::Ranges(reason.to_slice()?.iter().map(|&byte| char::from(byte)).collect()))
}

#[derive(Clone, Copy, Debug, Eq, PartialEq)]
pub struct Range {
    pub begin: u64,
    pub end: u64,
}

pub struct RangeIter<R: Reader> {
    unit: Rc<UnitData<R>>,
    entry: usize,
    next: usize,
    /// The list that is read, in the list section, with the address table (E9).
    list: Option<(Cursor, R, R)>,
}

impl<R: Reader> RangeIter<R> {
    pub fn next(&mut self) -> Result<Option<Range>> {
        if let Some((cursor, lists, addresses)) = &mut self.list {
            let range = cursor.next(Sections { lists: &lists.to_slice()?, addresses: &addresses.to_slice()? }).map_err(Error::List)?;
            return Ok(range.map(|(range, tombstone)| {
                self.unit.tombstone.set(tombstone);
                range
            }));
        }
        let entry = &self.unit.entries[self.entry];
        if let Some(&(range, tombstone)) = entry.ranges.get(self.next) {
            self.next += 1;
            self.unit.tombstone.set(tombstone);
            return Ok(Some(range));
        }
        match &entry.failure {
            Some((_, reason)) => Err(range_error(reason)?),
            None => Ok(None),
        }
    }
}

impl<R: Reader> RangeIter<R> {
    /// The fault of a list, if it has one: for a deliberate fault that asks for it too soon.
    #[allow(dead_code)]
    pub fn faultless(mut self) -> Result<()> {
        while self.list.is_some() && self.next()?.is_some() {}
        Ok(())
    }
}

pub struct UnitHeaders<'a, R: Reader>(std::slice::Iter<'a, Rc<UnitData<R>>>);

impl<R: Reader> UnitHeaders<'_, R> {
    pub fn next(&mut self) -> Result<Option<Rc<UnitData<R>>>> {
        Ok(self.0.next().cloned())
    }
}
