//! All units of a main input in one import.

use crate::{Buffers, Finished, Inputs, Options, Refusal, told};

mod sys {
    unsafe extern "C" {
        pub fn pezgok_import_dwarf(
            main: *const u8,
            main_len: usize,
            supplementary: *const u8,
            supplementary_len: usize,
            program: *const u8,
            program_len: usize,
            lists: *const u8,
            lists_len: usize,
            addresses: *const u8,
            addresses_len: usize,
            inlines: bool,
            call_sites: bool,
            first_file: u32,
            work: *mut u8,
            work_len: usize,
            records: *mut u8,
            records_len: usize,
            files: *mut u8,
            files_len: usize,
            warnings: *mut u8,
            warnings_len: usize,
            values: *mut [u64; 7],
        ) -> u8;
        pub fn pezgok_measure_dwarf(
            main: *const u8,
            main_len: usize,
            supplementary: *const u8,
            supplementary_len: usize,
            program: *const u8,
            program_len: usize,
            lists: *const u8,
            lists_len: usize,
            addresses: *const u8,
            addresses_len: usize,
            inlines: bool,
            call_sites: bool,
            first_file: u32,
            work: *mut u8,
            work_len: usize,
            values: *mut [u64; 7],
        ) -> u8;
    }
}

/// Imports all units of the main input, in order, with one table of files; the ordinal of the options is not read. The buffers have what the units'
/// imports write one after another, a file once, and the statistics are added. The first unit that is refused refuses all. Where a unit's line program
/// stands in the one that is lent, field 1e behind its line header says; without it, the unit reads all of it. An input without units is a package
/// without debug data. Work has the same length as for one unit, the one that needs most.
pub fn import_dwarf(inputs: Inputs<'_>, options: Options, buffers: Buffers<'_>) -> Result<Finished, Refusal> {
    let mut values = [0; 7];
    // SAFETY: every pointer and length are those of a slice; the borrows keep the written ones apart from all others.
    let refusal = unsafe {
        sys::pezgok_import_dwarf(
            inputs.main.as_ptr(),
            inputs.main.len(),
            inputs.supplementary.as_ptr(),
            inputs.supplementary.len(),
            inputs.program.as_ptr(),
            inputs.program.len(),
            inputs.lists.as_ptr(),
            inputs.lists.len(),
            inputs.addresses.as_ptr(),
            inputs.addresses.len(),
            options.inlines,
            options.call_sites,
            options.first_file,
            buffers.work.as_mut_ptr(),
            buffers.work.len(),
            buffers.records.as_mut_ptr(),
            buffers.records.len(),
            buffers.files.as_mut_ptr(),
            buffers.files.len(),
            buffers.warnings.as_mut_ptr(),
            buffers.warnings.len(),
            &mut values,
        )
    };
    told(refusal, values)
}

/// How long the buffers of such an import must be, and its statistics, as [`measure`](crate::measure) says it of [`import`](crate::import).
pub fn measure_dwarf(inputs: Inputs<'_>, options: Options, work: &mut [u8]) -> Result<Finished, Refusal> {
    let mut values = [0; 7];
    // SAFETY: every pointer and length are those of a slice; the borrows keep the written one apart from all others.
    let refusal = unsafe {
        sys::pezgok_measure_dwarf(
            inputs.main.as_ptr(),
            inputs.main.len(),
            inputs.supplementary.as_ptr(),
            inputs.supplementary.len(),
            inputs.program.as_ptr(),
            inputs.program.len(),
            inputs.lists.as_ptr(),
            inputs.lists.len(),
            inputs.addresses.as_ptr(),
            inputs.addresses.len(),
            options.inlines,
            options.call_sites,
            options.first_file,
            work.as_mut_ptr(),
            work.len(),
            &mut values,
        )
    };
    told(refusal, values)
}
