//! Safe calls of the proved import: one unit of a main input, or all units, with a supplementary one and a line program, to records, files and warnings.
//!
//! [`Builder`] owns all memory: it imports any number of units, joins the symbols of functions that have no DWARF, and gives a [`Table`], which answers
//! what is running at an address with an iterator of [`Frame`]s and can be saved. [`read_units`] fills a builder from what the dumper writes.
//!
//! Below it are the raw functions, for who lends memory: [`measure`] says how long the buffers must be, [`import`] fills them; [`measure_dwarf`] and
//! [`import_dwarf`] do so for all units at once; [`look`] asks the records what is running at an address; [`join_symbols`] adds the functions that only a
//! symbol table knows.

use std::fmt;

use fields::{Fields, RANGE_LIST, UNIT};

mod builder;
mod error;
pub mod fields;
mod frames;
mod layers;
pub mod look;
mod saved;
mod stream;
mod symbols;
mod table;
mod whole;

pub use builder::{Builder, Unit};
pub use error::Error;
pub use frames::{File, Frame, Frames, Kind, Location, readable};
pub use stream::{Event, read_units};
pub use table::{Answer, Function, Node, NotImported, Table};

pub use symbols::{join_symbols, join_symbols_with, symbols_work_length};
pub use whole::{import_dwarf, measure_dwarf};

mod sys {
    unsafe extern "C" {
        pub fn pezgok_import(
            main: *const u8,
            main_len: usize,
            supplementary: *const u8,
            supplementary_len: usize,
            program: *const u8,
            program_len: usize,
            lists: *const u8,
            lists_len: usize,
            addresses: *const u8,
            addresses_len: usize,
            ordinal: u64,
            inlines: bool,
            call_sites: bool,
            first_file: u32,
            work: *mut u8,
            work_len: usize,
            records: *mut u8,
            records_len: usize,
            files: *mut u8,
            files_len: usize,
            warnings: *mut u8,
            warnings_len: usize,
            values: *mut [u64; 7],
        ) -> u8;
        pub fn pezgok_measure(
            main: *const u8,
            main_len: usize,
            supplementary: *const u8,
            supplementary_len: usize,
            program: *const u8,
            program_len: usize,
            lists: *const u8,
            lists_len: usize,
            addresses: *const u8,
            addresses_len: usize,
            ordinal: u64,
            inlines: bool,
            call_sites: bool,
            first_file: u32,
            work: *mut u8,
            work_len: usize,
            values: *mut [u64; 7],
        ) -> u8;
        pub fn pezgok_refusal_name(refusal: u8, name: *mut u8, name_len: usize) -> usize;
    }
}

/// What is read. By default all are empty.
#[derive(Clone, Copy, Debug, Default)]
pub struct Inputs<'a> {
    /// Empty: a package without debug data, whose import of ordinal 0 is finished with nothing in it.
    pub main: &'a [u8],
    /// Empty: there is none.
    pub supplementary: &'a [u8],
    pub program: &'a [u8],
    /// The list section (.debug_rnglists) and the address table (.debug_addr), lowest byte first, for entries whose ranges are in lists (field 1f); empty
    /// where there are none. Work multiplies the first: lend the unit's own part of it.
    pub lists: &'a [u8],
    pub addresses: &'a [u8],
}

/// What is asked.
#[derive(Clone, Copy, Debug)]
pub struct Options {
    /// The unit's number in the main input, from 0. Not read where all units are imported.
    pub ordinal: u64,
    pub inlines: bool,
    pub call_sites: bool,
    pub first_file: u32,
}

impl Default for Options {
    fn default() -> Self {
        Self { ordinal: 0, inlines: true, call_sites: true, first_file: 1 }
    }
}

/// What is written to. Work holds only 0 after every call.
#[derive(Debug)]
pub struct Buffers<'a> {
    pub work: &'a mut [u8],
    pub records: &'a mut [u8],
    pub files: &'a mut [u8],
    pub warnings: &'a mut [u8],
}

/// The lengths of what an import writes, and its statistics.
#[derive(Clone, Copy, Debug, Default, Eq, PartialEq)]
pub struct Finished {
    pub records: usize,
    pub files: usize,
    pub warnings: usize,
    pub functions: u64,
    pub line_rows: u64,
    pub inline_nodes: u64,
    pub rejected_ranges: u64,
}

/// Why a call was refused: a number from 1 to 18 or 21 to 25 of an import, whose three output buffers then hold only 0; 5, 16, 19 or 20 of a look-up.
#[derive(Clone, Copy, Debug, Eq, PartialEq)]
pub struct Refusal(u8);

impl Refusal {
    /// A line program can't be run for its rows: its line range is 0, or its operations per instruction are other than 1.
    pub const LINE_ENCODING: Self = Self(21);
    /// An address falls within a sequence of a line program, or passes 2^64 - 1.
    pub const LINE_ADDRESS: Self = Self(22);
    /// A range list of a named inlined entry is cut, or has an entry of an unknown kind.
    pub const CUT_LIST: Self = Self(23);
    /// An index in such a list is past the address table.
    pub const NO_ADDRESS: Self = Self(24);
    /// An address in such a list does not fit its size.
    pub const WIDE_ADDRESS: Self = Self(25);

    pub fn number(self) -> u8 {
        self.0
    }
}

impl fmt::Display for Refusal {
    fn fmt(&self, f: &mut fmt::Formatter<'_>) -> fmt::Result {
        let mut name = [0; 32];
        // SAFETY: the pointer and the length are those of `name`, which nothing else has.
        let length = unsafe { sys::pezgok_refusal_name(self.0, name.as_mut_ptr(), name.len()) };
        f.write_str(std::str::from_utf8(&name[..length.min(name.len())]).unwrap_or("refused"))
    }
}

impl std::error::Error for Refusal {}

/// How long the work slice has to be for so many fields, of both inputs together, and so many bytes of program: 16,384 bytes more than while strings
/// had 4,096 bytes at most.
pub const fn work_length(fields: usize, program: usize) -> usize {
    64 * fields + 4 * program + 32_768
}

/// The same where a unit that is imported takes its rows from its line program: where field 1d, the line encoding, stands behind its line header. It is
/// enough for every import.
pub const fn work_length_encoded(fields: usize, program: usize) -> usize {
    64 * fields + 64 * program + 32_768
}

/// What is to be added to either for so many bytes of the list section and so many fields 1f of the imported unit, which [`list_fields`] counts; of all
/// units the one that needs most decides.
pub const fn list_work_length(lists: usize, fields: usize) -> usize {
    8 * lists * if fields < COUNTED_LISTS { fields } else { COUNTED_LISTS }
}

/// How many fields 1f of a unit count.
const COUNTED_LISTS: usize = 256;

/// How many entries of a unit of the main input have their ranges in lists.
pub fn list_fields(main: &[u8], ordinal: u64) -> usize {
    let (mut units, mut lists) = (0, 0);
    for field in Fields::new(main) {
        units += u64::from(field.tag == UNIT);
        lists += usize::from(field.tag == RANGE_LIST && units.checked_sub(1) == Some(ordinal));
    }
    lists
}

/// Imports a unit. Any content and any length is taken.
pub fn import(inputs: Inputs<'_>, options: Options, buffers: Buffers<'_>) -> Result<Finished, Refusal> {
    let mut values = [0; 7];
    // SAFETY: every pointer and length are those of a slice; the borrows keep the written ones apart from all others.
    let refusal = unsafe {
        sys::pezgok_import(
            inputs.main.as_ptr(),
            inputs.main.len(),
            inputs.supplementary.as_ptr(),
            inputs.supplementary.len(),
            inputs.program.as_ptr(),
            inputs.program.len(),
            inputs.lists.as_ptr(),
            inputs.lists.len(),
            inputs.addresses.as_ptr(),
            inputs.addresses.len(),
            options.ordinal,
            options.inlines,
            options.call_sites,
            options.first_file,
            buffers.work.as_mut_ptr(),
            buffers.work.len(),
            buffers.records.as_mut_ptr(),
            buffers.records.len(),
            buffers.files.as_mut_ptr(),
            buffers.files.len(),
            buffers.warnings.as_mut_ptr(),
            buffers.warnings.len(),
            &mut values,
        )
    };
    told(refusal, values)
}

/// How long the buffers of such an import must be, and its statistics: what [`import`] gives on buffers of those lengths or more. It is refused
/// as the import is, with a number from 1 to 15 or 21 to 25, and with 16 where the records would pass 2^64 - 1 bytes. Work has the same length and
/// holds only 0 after every call.
pub fn measure(inputs: Inputs<'_>, options: Options, work: &mut [u8]) -> Result<Finished, Refusal> {
    let mut values = [0; 7];
    // SAFETY: every pointer and length are those of a slice; the borrows keep the written one apart from all others.
    let refusal = unsafe {
        sys::pezgok_measure(
            inputs.main.as_ptr(),
            inputs.main.len(),
            inputs.supplementary.as_ptr(),
            inputs.supplementary.len(),
            inputs.program.as_ptr(),
            inputs.program.len(),
            inputs.lists.as_ptr(),
            inputs.lists.len(),
            inputs.addresses.as_ptr(),
            inputs.addresses.len(),
            options.ordinal,
            options.inlines,
            options.call_sites,
            options.first_file,
            work.as_mut_ptr(),
            work.len(),
            &mut values,
        )
    };
    told(refusal, values)
}

fn told(refusal: u8, values: [u64; 7]) -> Result<Finished, Refusal> {
    if refusal != 0 {
        return Err(Refusal(refusal));
    }
    let [records, files, warnings, functions, line_rows, inline_nodes, rejected_ranges] = values;
    Ok(Finished {
        records: records as usize,
        files: files as usize,
        warnings: warnings as usize,
        functions,
        line_rows,
        inline_nodes,
        rejected_ranges,
    })
}
