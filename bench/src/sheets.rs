//! Inputs of a chosen number of fields: sound ones of one family each, and the worst that the limits allow.

use oracle::Case;
use oracle::compose::*;

mod families;
mod worst;

pub use families::units;
use families::{files, functions, inlined, references, rows};
use worst::*;

/// As many fields as an input may have.
pub const LIMIT: u64 = 65_536;
const START: u64 = 0x1000;

/// What is timed at each doubling of the fields.
pub const FAMILIES: [(&str, fn(u64) -> Case); 7] = [
    ("rows", rows),
    ("entries with references", references),
    ("inlined entries", inlined),
    ("files", files),
    ("functions over many rows, ascending", |count| functions(count, |place, _| place)),
    ("functions over many rows, descending", |count| functions(count, |place, all| all - 1 - place)),
    ("functions over many rows, in no order", |count| functions(count, |place, all| place * 7_919 % all)),
];

/// What is timed at the limits.
pub const WORST: [(&str, fn() -> Case); 26] = [
    ("executable ranges", || texts(LIMIT)),
    ("directories", || directories(LIMIT)),
    ("files of one name", || named_files(LIMIT, |_| b"same.c".to_vec())),
    ("files of other names", || named_files(LIMIT, |file| format!("{file:x}.c").into_bytes())),
    ("a file in each of thousands of directories", || spread_files(LIMIT)),
    ("rows that ascend", || plain_rows(LIMIT, |row| row)),
    ("rows that descend", || plain_rows(LIMIT, |row| LIMIT - row)),
    ("rows in no order", || plain_rows(LIMIT, |row| row * 40_503 % LIMIT)),
    ("rows of one address", || plain_rows(LIMIT, |_| 0)),
    ("sequences, one for each function", || sequences(LIMIT)),
    ("entries without a name", || entries(LIMIT)),
    ("attributes of one entry", || attributes(LIMIT)),
    ("ranges of one subprogram", || ranges(LIMIT)),
    ("ranges of an inlined entry that ascend", || inlined_ranges(LIMIT, |range| range)),
    ("ranges of an inlined entry that descend", || inlined_ranges(LIMIT, |range| LIMIT - range)),
    ("ranges of an inlined entry in no order", || inlined_ranges(LIMIT, |range| range * 40_503 % LIMIT)),
    ("ranges that touch, in no order", || touching_ranges(LIMIT)),
    ("ranges below many ranges", || ranges_below(8_192)),
    ("call sites of one function", || call_sites(LIMIT)),
    ("a ring of all entries", || ring(LIMIT)),
    ("a web of references, searched once", || web(LIMIT, 1)),
    ("a web of references, searched from each of its ends", || web(LIMIT, 64)),
    ("a web in no order, searched from 2,048 entries", || tangle(2_048)),
    ("a web through the supplementary input", || supplementary_web(LIMIT)),
    ("entries 1,024 deep, nodes 256 deep", || nested(LIMIT)),
    ("the longest names", || long_names(2_700)),
];

fn case(main: Fields, supplementary: Fields, program: Vec<u8>) -> Case {
    let mut case = Case::new(main.0, supplementary.0, program);
    case.work = oracle::work_of(&case);
    (case.records, case.files, case.warnings) = (u32::MAX, u32::MAX, u32::MAX);
    case
}

/// A unit with one wide text and, as every family has it, a length that holds all entries.
fn unit() -> Fields {
    let mut main = Fields::default();
    main.unit(0, 1 << 32, 5, 4).text(START, 1 << 40);
    main
}

fn header(main: &mut Fields) -> &mut Fields {
    main.header(0, 32, 5, 4, 13, &OPCODE_LENGTHS).directory(0, b"/rig/src")
}

/// The column of a row by its number, as a compiler might give it.
fn column(row: u64) -> u16 {
    1 + (7 * row % 80) as u16
}

fn subprogram(main: &mut Fields, offset: u64, name: &[u8], start: u64, end: u64) {
    main.entry(offset, 1, SUBPROGRAM).string(NAME, name).range(start, end, 0);
}
