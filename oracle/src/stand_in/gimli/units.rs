//! Units: what the parser fills, and what the decoder answers.

use std::cell::{Cell, OnceCell};
use std::rc::Rc;

use super::{
    DebugInfoOffset, DebuggingInformationEntry, Encoding, EntriesRaw, EntryData, Error, Format, IncompleteLineProgram, LineProgramHeader,
    LineRow, Range, Reader, Result, RowKind, SectionId, UnitOffset, UnitSectionOffset,
};
use crate::machine::LineEncoding;
use crate::trace::{Event, trace};

pub struct UnitData<R: Reader> {
    /// Whether it stands in the supplementary input, and its number there.
    pub supplementary: bool,
    pub number: usize,
    pub offset: usize,
    pub length: usize,
    pub format: Format,
    /// Field 10's, which decides where field 1f may stand (E9).
    pub version: u16,
    pub directory: Option<R>,
    pub text: Vec<Range>,
    pub lines: Option<LineProgramHeader<R>>,
    /// Its row fields. With field 1d (E8) there are none: `rows` has those of its program.
    pub given: Vec<LineRow>,
    pub encoding: Option<LineEncoding>,
    pub ran: OnceCell<Vec<LineRow>>,
    pub entries: Vec<EntryData<R>>,
    /// How many fields 1f it has.
    pub lists: usize,
    /// The tombstone flag of the range that was given last.
    pub tombstone: Cell<bool>,
}

impl<R: Reader> UnitData<R> {
    /// The decoder's rows of the unit: its row fields or, with field 1d (E8), what the row machine makes of its program, the fault behind them.
    pub fn rows(&self) -> &[LineRow] {
        match self.encoded() {
            None => &self.given,
            Some((header, encoding)) => self.ran.get_or_init(|| {
                header.with_program(encoding, |program| {
                    let (mut rows, fault) = program.run(|_| ());
                    rows.extend(fault.map(|number| LineRow { address: 0, file: 0, line: 0, column: 0, kind: RowKind::Fault(number) }));
                    rows
                })
            }),
        }
    }

    /// The line header and the encoding of a unit with field 1d.
    pub fn encoded(&self) -> Option<(&LineProgramHeader<R>, LineEncoding)> {
        self.lines.as_ref().zip(self.encoding)
    }
}

/// The unit's header.
impl<R: Reader> UnitData<R> {
    answers! {
        section(&self) -> SectionId = SectionId::DebugInfo;
        offset(&self) -> UnitSectionOffset<usize> = UnitSectionOffset(self.offset);
        debug_info_offset(&self) -> Option<DebugInfoOffset<usize>> = Some(DebugInfoOffset(self.offset));
        length_including_self(&self) -> usize = self.length;
        // Asked of split units only, which no input has.
        version(&self) -> u16 = 0;
        address_size(&self) -> u8 = 0;
    }
}

pub struct Unit<R: Reader> {
    pub header: Rc<UnitData<R>>,
    pub comp_dir: Option<R>,
    pub name: Option<R>,
    pub line_program: Option<IncompleteLineProgram<R>>,
}

impl<R: Reader> Unit<R> {
    pub fn of(data: Rc<UnitData<R>>) -> Self {
        Self {
            comp_dir: data.directory.clone(),
            name: None,
            line_program: data.lines.is_some().then(|| IncompleteLineProgram { unit: Rc::clone(&data), next: 0 }),
            header: data,
        }
    }

    answers! { encoding(&self) -> Encoding = Encoding { format: self.header.format, version: 0 }; }

    /// The decoder's word on the range that was given last, of which the Rust asks here.
    pub fn is_tombstone_address(&self, _address: u64) -> bool {
        self.header.tombstone.get()
    }

    fn place(&self, offset: UnitOffset<usize>) -> Result<usize> {
        let entries = &self.header.entries;
        entries.binary_search_by_key(&offset.0, |entry| entry.offset).map_err(|_| Error::NoEntryAtGivenOffset(offset.0 as u64))
    }

    pub fn entries_raw(&self, offset: Option<UnitOffset<usize>>) -> Result<EntriesRaw<'_, R>> {
        let unit = &self.header;
        let next = offset.map_or(Ok(0), |offset| self.place(offset))?;
        if offset.is_some() {
            trace(|| Event::Follow { supplementary: unit.supplementary, unit: unit.number, entry: next });
        }
        Ok(EntriesRaw { unit, next, current: DebuggingInformationEntry::null() })
    }

    pub fn entries_at_offset(&self, offset: UnitOffset<usize>) -> Result<EntriesRaw<'_, R>> {
        let next = self.place(offset)?;
        trace(|| Event::Walk { entry: next });
        Ok(EntriesRaw { unit: &self.header, next, current: DebuggingInformationEntry::null() })
    }
}
