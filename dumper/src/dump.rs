//! From a unit to its sheets: the unit, and the units that its references reach.

use std::collections::{BTreeSet, HashSet};
use std::ops::Range;
use std::path::Path;

use gimli::Dwarf;

use crate::fields::{self, Fields};
use crate::lines::Lines;
use crate::output::fault;
use crate::parts::Part as UnitPart;
use crate::sheet::{write, Own};
use crate::unit::{self, Slice, Source, Value};

pub const SUBPROGRAM: u16 = gimli::DW_TAG_subprogram.0;
pub const INLINED: u16 = gimli::DW_TAG_inlined_subroutine.0;
const CALL_SITE: u16 = gimli::DW_TAG_call_site.0;

/// The attributes by which the import goes from one entry to another.
const REFERENCES: [u16; 3] = [
    gimli::DW_AT_abstract_origin.0,
    gimli::DW_AT_specification.0,
    gimli::DW_AT_call_origin.0,
];

pub struct Dump {
    /// The unit's place among the units of the main sheet.
    pub ordinal: usize,
    pub main: Fields,
    pub supplementary: Fields,
    pub program: Vec<u8>,
    /// Whether a unit that is imported takes its rows from the program.
    pub encoded: bool,
    /// The list section and the address table, where ranges are left to their lists.
    pub lists: Vec<u8>,
    pub addresses: Vec<u8>,
}

/// The main file's units, the supplementary one's, and where code lies.
pub struct Input<'a> {
    pub main: Source<'a>,
    pub supplementary: Option<Source<'a>>,
    pub text: &'a [(u64, u64)],
    /// Whether rows are left to the line programs: the encoding stands in their place.
    pub programs: bool,
    /// Whether ranges of version 5 units are left to their lists.
    pub lists: bool,
}

impl<'a> Input<'a> {
    /// Over the sections of the file at a place, with rows and ranges from the decoder.
    pub fn new(
        place: &Path,
        dwarf: &'a Dwarf<Slice<'a>>,
        text: &'a [(u64, u64)],
    ) -> Result<Self, String> {
        Ok(Input {
            main: Source::new(dwarf).map_err(|what| fault(place, what))?,
            supplementary: dwarf
                .sup()
                .map(Source::new)
                .transpose()
                .map_err(|what| fault(place, format!("supplementary file: {what}")))?,
            text,
            programs: false,
            lists: false,
        })
    }

    /// The sheets of one unit, or why it has none.
    pub fn dump(&self, asked: usize) -> Result<Dump, String> {
        self.dump_part(asked, None)
    }

    /// Those of a part of a unit, which are lean; of the whole unit, with all entries, where none is given.
    pub fn dump_part(&self, asked: usize, part: Option<&UnitPart>) -> Result<Dump, String> {
        let lines = self.lines(asked)?;
        let program = lines.as_ref().map_or(&[][..], |lines| lines.program);
        if program.len() > fields::PROGRAM_LIMIT {
            return Err("a line program of more than 4,194,304 bytes".into());
        }
        let lists = self.lists(asked, false)?;
        let reached = self.reach(asked..asked + 1, part)?;
        let (main, supplementary) = self.write(&reached, part.is_some(), |index| {
            (index == asked).then_some(Own {
                text: self.text,
                lines: lines.as_ref(),
                program: None,
                lists: lists.as_ref(),
                part,
            })
        })?;
        Ok(Dump {
            ordinal: reached.main.range(..asked).count(),
            main,
            supplementary,
            program: program.to_vec(),
            encoded: self.programs && lines.is_some(),
            lists: lists.as_ref().map_or(&[][..], |lent| lent.lists).to_vec(),
            addresses: lists.map_or(&[][..], |lent| lent.addresses).to_vec(),
        })
    }

    /// The line program of a unit that is imported, run to its end, if there is one.
    pub fn lines(&self, index: usize) -> Result<Option<Lines<'a>>, String> {
        let decoded = self.main.unit(index)?;
        if decoded.unit.dwo_id.is_some() {
            return Err("a unit of split DWARF".into());
        }
        let program = decoded.unit.line_program.clone();
        Ok(program.map(|program| Lines::run(program, self.programs)))
    }

    /// The main and the supplementary sheet of the units that are reached, lean or with all entries;
    /// `own` is what only those have that are imported.
    pub fn write<'b>(
        &self,
        reached: &Reached,
        lean: bool,
        own: impl Fn(usize) -> Option<Own<'a, 'b>>,
    ) -> Result<(Fields, Fields), String>
    where
        'a: 'b,
    {
        let mut main = Fields::default();
        for &index in &reached.main {
            write(&mut main, &self.main, index, own(index), lean, |entry| {
                reached.entries.contains(&(false, index, entry.offset))
            })?;
        }
        let mut supplementary = Fields::default();
        if let Some(source) = &self.supplementary {
            for &index in &reached.supplementary {
                write(&mut supplementary, source, index, None, lean, |entry| {
                    reached.entries.contains(&(true, index, entry.offset))
                })?;
            }
        }
        Ok((main, supplementary))
    }

    /// The units that are reached from some units, or from a part of one, and the entries whose
    /// attributes can be read.
    pub fn reach(&self, asked: Range<usize>, part: Option<&UnitPart>) -> Result<Reached, String> {
        let mut reached = Reached::default();
        let mut open = Vec::new();
        for asked in asked {
            reached.main.insert(asked);
            for (place, entry) in self.main.unit(asked)?.entries.iter().enumerate() {
                let all = matches!(entry.tag, SUBPROGRAM | INLINED | CALL_SITE);
                if part.map_or(all, |part| part.owns(place)) {
                    reached.entries.insert((false, asked, entry.offset));
                    open.push((false, asked, entry));
                }
            }
        }
        while let Some((supplementary, index, entry)) = open.pop() {
            for attribute in &entry.attributes {
                let (true, Value::Number(kind, target)) =
                    (REFERENCES.contains(&attribute.name), &attribute.value)
                else {
                    continue;
                };
                let found = match *kind {
                    unit::UNIT_REFERENCE => Some((supplementary, index, *target)),
                    unit::SECTION_REFERENCE => self.locate(supplementary, *target),
                    // A supplementary file has none of its own.
                    unit::SUPPLEMENTARY_REFERENCE if !supplementary => self.locate(true, *target),
                    _ => None,
                };
                let Some((supplementary, index, offset)) = found else {
                    continue;
                };
                if supplementary {
                    reached.supplementary.insert(index);
                } else {
                    reached.main.insert(index);
                }
                let Some(source) = self.source(supplementary) else {
                    continue;
                };
                let entries = &source.unit(index)?.entries;
                let Ok(place) = entries.binary_search_by_key(&offset, |entry| entry.offset) else {
                    continue;
                };
                if reached.entries.insert((supplementary, index, offset)) {
                    open.push((supplementary, index, &entries[place]));
                }
            }
        }
        Ok(reached)
    }

    fn source(&self, supplementary: bool) -> Option<&Source<'a>> {
        if supplementary {
            self.supplementary.as_ref()
        } else {
            Some(&self.main)
        }
    }

    fn locate(&self, supplementary: bool, target: u64) -> Option<(bool, usize, u64)> {
        let source = self.source(supplementary)?;
        let index = source.containing(target)?;
        Some((supplementary, index, target - source.place(index).0))
    }
}

#[derive(Default)]
pub struct Reached {
    main: BTreeSet<usize>,
    supplementary: BTreeSet<usize>,
    /// Whether it is of the supplementary file, its unit, its offset there.
    entries: HashSet<(bool, usize, u64)>,
}
