//! Look-ups in a records buffer: what is running at an address, and the functions around it. Finds are byte places of fields in the buffer.

use std::ops::Range;

use crate::Refusal;

mod sys {
    unsafe extern "C" {
        pub fn pezgok_look_up(records: *const u8, records_len: usize, address: u64, found: *mut [usize; 4], chain: *mut [usize; 257])
        -> u8;
        pub fn pezgok_make_index(
            records: *const u8,
            records_len: usize,
            index: *mut u8,
            index_len: usize,
            functions: *mut usize,
            rising: *mut bool,
        ) -> u8;
        pub fn pezgok_look_up_in(
            records: *const u8,
            records_len: usize,
            index: *const u8,
            index_len: usize,
            functions: usize,
            rising: bool,
            address: u64,
            found: *mut [usize; 4],
            chain: *mut [usize; 257],
        ) -> u8;
        pub fn pezgok_nearest_below(records: *const u8, records_len: usize, address: u64, place: *mut usize) -> u8;
        pub fn pezgok_functions_inside(
            records: *const u8,
            records_len: usize,
            start: u64,
            end: u64,
            list: *mut u8,
            list_len: usize,
            length: *mut usize,
        ) -> u8;
        pub fn pezgok_functions_crossing(
            records: *const u8,
            records_len: usize,
            start: u64,
            end: u64,
            list: *mut u8,
            list_len: usize,
            length: *mut usize,
        ) -> u8;
    }
}

/// The most nodes that a chain has: the root and 256 below it.
pub const CHAIN_MOST: usize = 257;

/// What is running at an address.
#[derive(Clone, Copy, Debug, Eq, PartialEq)]
pub struct Frames {
    /// The function's field.
    pub function: usize,
    /// The field of the row in force; none where no row of the function is at or below the address.
    pub row: Option<usize>,
    nodes: usize,
    places: [usize; CHAIN_MOST],
}

impl Frames {
    /// The fields of the inlined calls that hold the address, outermost first; the first is the function's own.
    pub fn chain(&self) -> &[usize] {
        &self.places[..self.nodes]
    }

    /// The chain, and 0 behind it.
    pub fn places(&self) -> &[usize; CHAIN_MOST] {
        &self.places
    }
}

/// How long an index is for each function of the records.
pub const EXTENT_SIZE: usize = 24;

/// An index of the functions of a records buffer, for many look-ups in it.
#[derive(Clone, Copy, Debug)]
pub struct Index<'a> {
    bytes: &'a [u8],
    functions: usize,
    rising: bool,
}

impl<'a> Index<'a> {
    /// Makes the index in a slice of 24 bytes for each function. Refused with 19, or with 5 where the slice is too short; it then holds only 0.
    pub fn make(records: &[u8], bytes: &'a mut [u8]) -> Result<Self, Refusal> {
        let (mut functions, mut rising) = (0, false);
        // SAFETY: the pointers and lengths are those of slices, and the borrow keeps the written one apart.
        let refusal = unsafe {
            sys::pezgok_make_index(records.as_ptr(), records.len(), bytes.as_mut_ptr(), bytes.len(), &mut functions, &mut rising)
        };
        answered(refusal, Self { bytes, functions, rising })
    }

    /// The index that was made in these bytes, with the two values that were told then. Any others are taken too, and look-ups then find less.
    pub fn of(bytes: &'a [u8], functions: usize, rising: bool) -> Self {
        Self { bytes, functions, rising }
    }

    /// How many functions it has.
    pub fn functions(&self) -> usize {
        self.functions
    }

    /// Whether no two functions overlap, so that a look-up is a binary search.
    pub fn is_rising(&self) -> bool {
        self.rising
    }

    /// What [`look_up`] answers in the records that the index was made of. In others it is refused with 19 where no function stands at a place
    /// that the index names.
    pub fn look_up(&self, records: &[u8], address: u64) -> Result<Frames, Refusal> {
        let (mut found, mut places) = ([0; 4], [0; CHAIN_MOST]);
        // SAFETY: the pointers and lengths are those of slices, and nothing else has the two arrays.
        let refusal = unsafe {
            sys::pezgok_look_up_in(
                records.as_ptr(),
                records.len(),
                self.bytes.as_ptr(),
                self.bytes.len(),
                self.functions,
                self.rising,
                address,
                &mut found,
                &mut places,
            )
        };
        framed(refusal, found, places)
    }
}

/// What is running at an address, by the first function of the buffer that holds it. Refused with 19 where the bytes are no records, with 20
/// where no function holds it.
pub fn look_up(records: &[u8], address: u64) -> Result<Frames, Refusal> {
    let (mut found, mut places) = ([0; 4], [0; CHAIN_MOST]);
    // SAFETY: the pointer and the length are those of a slice, and nothing else has the two arrays.
    let refusal = unsafe { sys::pezgok_look_up(records.as_ptr(), records.len(), address, &mut found, &mut places) };
    framed(refusal, found, places)
}

fn framed(refusal: u8, found: [usize; 4], places: [usize; CHAIN_MOST]) -> Result<Frames, Refusal> {
    let [function, has_row, row, nodes] = found;
    answered(refusal, Frames { function, row: (has_row != 0).then_some(row), nodes, places })
}

/// The function that ends last at or below an address, the first of the buffer among equals. Refused with 19 or 20.
pub fn nearest_below(records: &[u8], address: u64) -> Result<usize, Refusal> {
    let mut place = 0;
    // SAFETY: as above.
    let refusal = unsafe { sys::pezgok_nearest_below(records.as_ptr(), records.len(), address, &mut place) };
    answered(refusal, place)
}

/// Writes the fields of the functions of which no address is outside a window, and gives their length; bytes past it stay. Refused with 19, with
/// 16 where the list is too short, with 20 where there is none; the list then holds only 0.
pub fn functions_inside(records: &[u8], window: Range<u64>, list: &mut [u8]) -> Result<usize, Refusal> {
    let mut length = 0;
    // SAFETY: the pointers and lengths are those of slices, and the borrow keeps the list apart.
    let refusal = unsafe {
        sys::pezgok_functions_inside(records.as_ptr(), records.len(), window.start, window.end, list.as_mut_ptr(), list.len(), &mut length)
    };
    answered(refusal, length)
}

/// The same of the functions that share an address with the window and reach outside it.
pub fn functions_crossing(records: &[u8], window: Range<u64>, list: &mut [u8]) -> Result<usize, Refusal> {
    let mut length = 0;
    // SAFETY: as above.
    let refusal = unsafe {
        sys::pezgok_functions_crossing(
            records.as_ptr(),
            records.len(),
            window.start,
            window.end,
            list.as_mut_ptr(),
            list.len(),
            &mut length,
        )
    };
    answered(refusal, length)
}

fn answered<T>(refusal: u8, value: T) -> Result<T, Refusal> {
    if refusal == 0 { Ok(value) } else { Err(Refusal(refusal)) }
}
