//! Imports of any number of units into buffers of one's own.

use crate::error::Error;
use crate::fields::Fields;
use crate::symbols::{join_symbols_with, symbols_work_length};
use crate::table::{NotImported, Table};
use crate::{
    Buffers, Finished, Inputs, Options, Refusal, import, list_fields, list_work_length, measure, work_length, work_length_encoded,
};

/// A unit to import.
#[derive(Clone, Copy, Debug)]
pub struct Unit<'a> {
    pub inputs: Inputs<'a>,
    /// Its number in the main input, from 0.
    pub ordinal: u64,
    /// The fields of both inputs together; a larger number costs time and nothing else.
    pub fields: usize,
}

impl<'a> Unit<'a> {
    /// A unit whose fields were not counted: each has three bytes at least.
    pub fn uncounted(inputs: Inputs<'a>, ordinal: u64) -> Self {
        Self { inputs, ordinal, fields: (inputs.main.len() + inputs.supplementary.len()) / 3 }
    }
}

/// What the buffers begin with; a unit that needs more is measured, and they grow.
const RECORDS_ROOM: usize = 1 << 20;
const FILES_ROOM: usize = 1 << 18;
const WARNINGS_ROOM: usize = 1 << 16;
/// Inputs of more are refused, whatever the work slice.
const MOST_FIELDS: usize = 2 * 65_536;
const SHORT_TRAYS: std::ops::RangeInclusive<u8> = 16..=18;
const SHORT_WORK: u8 = 5;

/// Imports units one behind the other, and makes a [`Table`] of them. It owns all buffers, and uses them again for each unit.
///
/// ```no_run
/// # fn sheets() -> Vec<(Vec<u8>, Vec<u8>)> { Vec::new() }
/// # let symbols: &[u8] = &[];
/// use pezgok::{Answer, Builder, Inputs, Unit};
///
/// let mut builder = Builder::new();
/// for (main, program) in &sheets() {
///     builder.import(Unit::uncounted(Inputs { main, program, ..Inputs::default() }, 0))?;
/// }
/// builder.add_symbols(symbols);
/// let table = builder.finish()?;
/// if let Answer::Frames(frames) = table.look_up(0x1005) {
///     for frame in frames {
///         println!("{}", String::from_utf8_lossy(frame.function));
///         if let Some(place) = frame.location {
///             println!("  line {} of {:?}", place.line, place.file.map(|file| file.to_string()));
///         }
///     }
/// }
/// # Ok::<(), Box<dyn std::error::Error>>(())
/// ```
#[derive(Debug)]
pub struct Builder {
    work: Vec<u8>,
    tray: [Vec<u8>; 3],
    records: Vec<u8>,
    files: Vec<u8>,
    symbols: Vec<u8>,
    not_imported: Vec<NotImported>,
    next_file: u32,
}

impl Default for Builder {
    fn default() -> Self {
        Self::new()
    }
}

impl Builder {
    pub fn new() -> Self {
        Self {
            work: Vec::new(),
            tray: [RECORDS_ROOM, FILES_ROOM, WARNINGS_ROOM].map(|room| vec![0; room]),
            records: Vec::new(),
            files: Vec::new(),
            symbols: Vec::new(),
            not_imported: Vec::new(),
            next_file: 1,
        }
    }

    /// Imports a unit. Its records follow those of the units before, its files have the next free numbers. After a refusal the table is as it was.
    pub fn import(&mut self, unit: Unit<'_>) -> Result<Finished, Refusal> {
        // A group of units whose sheets stand in one main input would be imported here by one call, which shares the file table among them.
        let (fields, program) = (unit.fields.min(MOST_FIELDS), unit.inputs.program.len());
        let lists = match unit.inputs.lists {
            [] => 0,
            lists => list_work_length(lists.len(), list_fields(unit.inputs.main, unit.ordinal)),
        };
        let mut length = work_length(fields, program) + lists;
        // Call sites are of no use for frames.
        let options = Options { ordinal: unit.ordinal, inlines: true, call_sites: false, first_file: self.next_file };
        let mut result = self.import_with(unit.inputs, options, length);
        // A unit whose rows come from its line program needs more.
        if result.is_err_and(|refusal| refusal.number() == SHORT_WORK) {
            length = work_length_encoded(fields, program) + lists;
            result = self.import_with(unit.inputs, options, length);
        }
        if result.is_err_and(|refusal| SHORT_TRAYS.contains(&refusal.number())) {
            let needed = measure(unit.inputs, options, &mut self.work[..length])?;
            for (tray, needed) in self.tray.iter_mut().zip([needed.records, needed.files, needed.warnings]) {
                if tray.len() < needed {
                    tray.resize(needed, 0);
                }
            }
            result = self.import_with(unit.inputs, options, length);
        }
        let done = result?;
        self.records.extend_from_slice(&self.tray[0][..done.records]);
        let files = &self.tray[1][..done.files];
        // A number that does not fit is refused by the import that would need it.
        self.next_file = self.next_file.saturating_add(Fields::new(files).count() as u32);
        self.files.extend_from_slice(files);
        Ok(done)
    }

    fn import_with(&mut self, inputs: Inputs<'_>, options: Options, work: usize) -> Result<Finished, Refusal> {
        if self.work.len() < work {
            self.work.resize(work, 0);
        }
        let [records, files, warnings] = &mut self.tray;
        import(inputs, options, Buffers { work: &mut self.work[..work], records, files, warnings })
    }

    /// Remembers a unit that is not imported: an address in its ranges is then answered so.
    pub fn leave_out(&mut self, unit: NotImported) {
        self.not_imported.push(unit);
    }

    /// Adds symbols, fields 50 (start, size, name), which [`finish`](Self::finish) joins to the records.
    pub fn add_symbols(&mut self, list: &[u8]) {
        self.symbols.extend_from_slice(list);
    }

    /// Joins the symbols, makes the indexes, and gives the table.
    pub fn finish(self) -> Result<Table, Error> {
        let by_symbol = self.records.len();
        let (mut joined, mut work) = (vec![0; by_symbol + self.symbols.len()], self.work);
        work.resize(symbols_work_length(by_symbol, self.symbols.len()), 0);
        let length = join_symbols_with(&self.records, &self.symbols, &mut joined, &mut work).map_err(Error::Symbols)?;
        joined.truncate(length);
        Table::new(joined, by_symbol, self.files, self.not_imported)
    }
}
