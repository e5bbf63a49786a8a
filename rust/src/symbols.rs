//! Functions known only by symbol, joined to the records of an import.

use crate::Refusal;

mod sys {
    unsafe extern "C" {
        pub fn pezgok_join_symbols(
            records: *const u8,
            records_len: usize,
            symbols: *const u8,
            symbols_len: usize,
            result: *mut u8,
            result_len: usize,
            work: *mut u8,
            work_len: usize,
            length: *mut usize,
        ) -> u8;
    }
}

/// The least bytes of a symbol's or a function's field: tag, length, two numbers of 8 bytes.
const FIELD: usize = 19;
/// What a range takes in the work slice.
const RANGE: usize = 16;

/// How long a work slice is with which [`join_symbols_with`] never has to walk over the records for a symbol.
pub const fn symbols_work_length(records: usize, symbols: usize) -> usize {
    RANGE * (records / FIELD + symbols / FIELD)
}

/// Joins a list of fields 50 (start, size, name) to a records tray: the records are copied to the result, and a bare function follows for each symbol
/// that has a size and a name and whose start no record already in the result holds. Says how long the result is; bytes behind it stay as they are. It
/// is never longer than both together. It is refused with 19, 26 or 27, and then fills the result with 0.
pub fn join_symbols(records: &[u8], symbols: &[u8], result: &mut [u8]) -> Result<usize, Refusal> {
    let mut work = vec![0; symbols_work_length(records.len(), symbols.len())];
    join_symbols_with(records, symbols, result, &mut work)
}

/// The same with a work slice of any length and content, which decides about time alone. It holds only 0 after every call.
pub fn join_symbols_with(records: &[u8], symbols: &[u8], result: &mut [u8], work: &mut [u8]) -> Result<usize, Refusal> {
    let mut length = 0;
    // SAFETY: every pointer and length are those of a slice; the borrows keep the written ones apart from all others.
    let refusal = unsafe {
        sys::pezgok_join_symbols(
            records.as_ptr(),
            records.len(),
            symbols.as_ptr(),
            symbols.len(),
            result.as_mut_ptr(),
            result.len(),
            work.as_mut_ptr(),
            work.len(),
            &mut length,
        )
    };
    if refusal == 0 { Ok(length) } else { Err(Refusal(refusal)) }
}
