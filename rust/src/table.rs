//! A table of functions: what the imports of any number of units give, the symbols joined to it, answers for addresses.

use std::ops::Range;

use crate::error::Error;
use crate::fields::{FILE, FUNCTION, Field, Fields, NODE, RANGE};
use crate::frames::{FUNCTION_NAME, File, Frames, NODE_NAME};
use crate::layers::{Layer, split};

/// A unit that is not in the table, and why.
#[derive(Clone, Debug, Eq, PartialEq)]
pub struct NotImported {
    /// Its number in the object.
    pub unit: u64,
    pub name: String,
    /// The limit that it passes, or the import's refusal.
    pub reason: String,
    /// Where its code lies, as far as that is known.
    pub ranges: Vec<Range<u64>>,
}

/// What is known of an address.
#[derive(Clone, Debug)]
#[expect(clippy::large_enum_variant, reason = "a box would cost an allocation for each address")]
pub enum Answer<'a> {
    /// The calls that are running there, innermost first. A function that only a symbol table knows is one frame.
    Frames(Frames<'a>),
    /// It lies in a unit that is not in the table; a symbol may still name the function.
    NotImported {
        unit: &'a NotImported,
        symbol: Option<&'a [u8]>,
    },
    Nothing,
}

/// The functions of an object, ready for look-ups.
#[derive(Clone, Debug, Default)]
pub struct Table {
    /// Functions that share no address with another, then the others: the first are found by a binary search, of the others the first holds.
    pub(crate) layers: [Layer; 2],
    pub(crate) files: Vec<u8>,
    /// Where each file's field begins. The first file has number 1.
    places: Vec<usize>,
    pub(crate) not_imported: Vec<NotImported>,
    gaps: Vec<Gap>,
}

/// A range of a unit that is not imported. Gaps ascend by their starts.
#[derive(Clone, Debug)]
struct Gap {
    range: Range<u64>,
    /// The unit's place in the list.
    unit: usize,
    /// The largest end up to this one.
    reached: u64,
}

impl Table {
    /// Functions known only by symbol begin at the place `by_symbol` of the records.
    pub(crate) fn new(records: Vec<u8>, by_symbol: usize, files: Vec<u8>, not_imported: Vec<NotImported>) -> Result<Self, Error> {
        Self::with_layers(split(records, by_symbol)?, files, not_imported)
    }

    pub(crate) fn with_layers(layers: [Layer; 2], files: Vec<u8>, not_imported: Vec<NotImported>) -> Result<Self, Error> {
        let mut fields = Fields::new(&files);
        let places = fields.by_ref().map(|field| (field.tag == FILE).then_some(field.place)).collect::<Option<Vec<_>>>();
        let Some(places) = places.filter(|_| fields.place() == files.len()) else {
            return Err(Error::Damaged("its files are no files tray"));
        };
        let mut gaps = Vec::new();
        for (unit, left_out) in not_imported.iter().enumerate() {
            gaps.extend(left_out.ranges.iter().map(|range| Gap { range: range.clone(), unit, reached: 0 }));
        }
        gaps.sort_by_key(|gap| gap.range.start);
        let mut reached = 0;
        for gap in &mut gaps {
            reached = reached.max(gap.range.end);
            gap.reached = reached;
        }
        Ok(Self { layers, files, places, not_imported, gaps })
    }

    /// What is running at an address: by the first function in the order of the units that holds it.
    pub fn look_up(&self, address: u64) -> Answer<'_> {
        let mut symbol = None;
        for layer in &self.layers {
            if let Ok(found) = layer.look_up(address) {
                let by_symbol = found.function >= layer.by_symbol;
                let frames = Frames::new(self, &layer.records, found, by_symbol);
                if !by_symbol || self.gaps.is_empty() {
                    return Answer::Frames(frames);
                }
                symbol = Some(frames);
                break;
            }
        }
        match (self.gap(address), symbol) {
            (Some(unit), frames) => Answer::NotImported { unit, symbol: frames.map(|frames| frames.function().0) },
            (None, Some(frames)) => Answer::Frames(frames),
            (None, None) => Answer::Nothing,
        }
    }

    /// The unit that is not imported and holds an address.
    fn gap(&self, address: u64) -> Option<&NotImported> {
        let behind = self.gaps.partition_point(|gap| gap.range.start <= address);
        let near = self.gaps[..behind].iter().rev().take_while(|gap| address < gap.reached);
        self.not_imported.get(near.into_iter().find(|gap| gap.range.contains(&address))?.unit)
    }

    /// The units that are not in the table.
    pub fn not_imported(&self) -> &[NotImported] {
        &self.not_imported
    }

    /// The file of a number; 0 is none.
    pub fn file(&self, number: u32) -> Option<File<'_>> {
        let place = *self.places.get(usize::try_from(number).ok()?.checked_sub(1)?)?;
        let field = Field::at(&self.files, place)?;
        let split = field.number(0, 2) as usize;
        Some(File { directory: field.payload.get(2..2 + split)?, basename: field.text(2 + split) })
    }

    /// The functions, those known only by symbol among them; of those that have the same addresses the first.
    pub fn functions(&self) -> impl Iterator<Item = Function<'_>> {
        self.layers.iter().flat_map(move |layer| {
            let heads = Fields::new(&layer.records).filter(|field| field.tag == FUNCTION);
            heads.map(move |head| Function { table: self, head, records: &layer.records, by_symbol: head.place >= layer.by_symbol })
        })
    }
}

/// A function of the table.
#[derive(Clone, Copy, Debug)]
pub struct Function<'a> {
    table: &'a Table,
    head: Field<'a>,
    records: &'a [u8],
    by_symbol: bool,
}

impl<'a> Function<'a> {
    pub fn name(&self) -> &'a [u8] {
        self.head.text(FUNCTION_NAME)
    }

    pub fn range(&self) -> Range<u64> {
        self.head.number(0, 8)..self.head.number(8, 8)
    }

    /// Whether only a symbol table knows it.
    pub fn is_by_symbol(&self) -> bool {
        self.by_symbol
    }

    /// The tree of its inlined calls in preorder, the function's own node first; none where nothing was inlined.
    pub fn nodes(&self) -> impl Iterator<Item = Node<'a>> {
        let own = Fields::from(self.records, self.head.end()).take_while(|field| field.tag != FUNCTION);
        let (table, records) = (self.table, self.records);
        own.filter(|field| field.tag == NODE).map(move |field| Node {
            depth: field.number(0, 2) as usize,
            name: field.text(NODE_NAME),
            call_file: table.file(field.number(2, 4) as u32),
            call_line: field.number(6, 4) as u32,
            ranges: Fields::from(records, field.end())
                .take_while(|field| field.tag == RANGE)
                .map(|field| field.number(0, 8)..field.number(8, 8))
                .collect(),
        })
    }
}

/// A node of a tree of inlined calls.
#[derive(Clone, Debug, Eq, PartialEq)]
pub struct Node<'a> {
    /// 0 is the function itself.
    pub depth: usize,
    pub name: &'a [u8],
    /// Where its parent calls it.
    pub call_file: Option<File<'a>>,
    /// 0 where it is not known.
    pub call_line: u32,
    pub ranges: Vec<Range<u64>>,
}
