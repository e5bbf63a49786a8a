//! Cases of request E11 by hand, each with the listing that it must print: two units of the shape of document 01's printed import, at 1000 and
//! 2000 hex, imported together.

use crate::case::{Case, Shown};
use crate::compose::*;

/// The program of two sequences, one for each unit.
const PROGRAM: &[u8] = &[0, 1, 1, 0, 1, 1];
const FIRST_HALF: Option<(u64, u64)> = Some((0, 3));
const SECOND_HALF: Option<(u64, u64)> = Some((3, 3));
const LAST: u64 = u64::MAX;
/// The fields of both units, each with a part.
const FIELDS: u64 = 36;

/// A unit of 18 fields, 17 without a part.
#[derive(Clone, Copy)]
struct Shape {
    part: Option<(u64, u64)>,
    file: &'static str,
    /// The second row's kind.
    row: u8,
    /// The attribute that says the subprogram's name, in place of dim.
    origin: Option<(u8, u64)>,
    sequence: Option<u64>,
}

const SHAPE: Shape = Shape { part: None, file: "cue.c", row: PLAIN, origin: None, sequence: None };

fn with_part(part: Option<(u64, u64)>) -> Shape {
    Shape { part, ..SHAPE }
}

impl Shape {
    fn write(self, fields: &mut Fields, number: u64) {
        let start = 0x1000 * (1 + number);
        fields.unit(100 * number, 100, 5, 4).text(0x1000, 0x3000).header(0, 32, 5, 4, 13, &OPCODE_LENGTHS);
        if let Some((start, length)) = self.part {
            fields.part(start, length);
        }
        fields.directory(0, b"/src").file(0, 0, self.file.as_bytes());
        fields.row(start, 0, 10, 0, PLAIN).row(start + 8, 0, 12, 0, self.row).row(start + 16, 0, 0, 0, END);
        fields.entry(11, 0, COMPILE_UNIT).entry(20, 1, SUBPROGRAM);
        match self.origin {
            Some((kind, target)) => _ = fields.attribute(ORIGIN, kind, target),
            None => _ = fields.string(NAME, b"dim"),
        }
        if let Some(sequence) = self.sequence {
            fields.attribute(STATEMENT_SEQUENCE, SECTION_OFFSET, sequence);
        }
        fields.range(start, start + 16, 0);
        fields.entry(30, 2, INLINED).string(NAME, b"fade").attribute(CALL_FILE, UNSIGNED, 0).attribute(CALL_LINE, UNSIGNED, 11);
        fields.range(start + 4, start + 8, 0);
    }
}

fn input(shapes: &[Shape]) -> Vec<u8> {
    let mut fields = Fields::default();
    shapes.iter().zip(0..).for_each(|(shape, number)| shape.write(&mut fields, number));
    fields.0
}

/// All units of these shapes.
fn all(shapes: &[Shape]) -> Case {
    Case { all: true, ..Case::new(input(shapes), Vec::new(), PROGRAM.to_vec()) }
}

fn parts(first: Option<(u64, u64)>, second: Option<(u64, u64)>) -> Case {
    all(&[with_part(first), with_part(second)])
}

/// The lines of a unit's function, of a file's number.
fn function(number: u64, file: u64) -> String {
    let start = 0x1000 * (1 + number);
    let [row, end, from, to] = [8, 16, 4, 8].map(|after| start + after);
    format!(
        "function {start:x} {end:x} dim\nrow {start:x} {file} 10 0\nrow {row:x} {file} 12 0\ninline 0 0 0 dim\nrange {start:x} {end:x}\n\
         inline 1 {file} 11 fade\nrange {from:x} {to:x}\n"
    )
}

/// The listing of both units, in one file, with these lines behind the files.
fn both(warnings: &str) -> String {
    format!("{}{}file 1 /src cue.c\n{warnings}stats 2 4 2 0\n", function(0, 1), function(1, 1))
}

pub fn cases() -> Vec<Shown> {
    let mut cases = Vec::new();
    let mut add = |name: &'static str, case: Case, listing: String| cases.push((name, case, listing));
    let refused = |number: u8| format!("refused {number}\n");
    let sound = || parts(FIRST_HALF, SECOND_HALF);

    add("two units in one file, with parts that tile the program", sound(), both(""));
    add("without 1e the part is the whole program", parts(FIRST_HALF, None), both("warning 5 1 2\n"));
    add("of the first unit too", parts(None, SECOND_HALF), both("warning 5 1 2\n"));
    add("parts that overlap", parts(Some((0, 6)), Some((2, 4))), both("warning 5 1 2\n"));
    add("one part for two units", parts(SECOND_HALF, SECOND_HALF), both(""));
    add("an empty part", parts(FIRST_HALF, Some((2, 0))), both("warning 5 1 0\n"));
    add("an empty part at the program's end", parts(FIRST_HALF, Some((6, 0))), both("warning 5 1 0\n"));
    for (name, part) in [
        ("a part that ends a byte past the program", (3, 4)),
        ("a part from the start that does", (0, 7)),
        ("an empty part behind the program", (7, 0)),
        ("a part from 2^64 - 1", (LAST, LAST)),
        ("a part whose end is 2^64", (1, LAST)),
        ("a part whose end is 2^64 and 3", (LAST, 4)),
    ] {
        add(name, parts(FIRST_HALF, Some(part)), refused(2));
        add("the same of the first unit", parts(Some(part), SECOND_HALF), refused(2));
        add("the same of a unit that is not imported", Case { all: false, ..parts(FIRST_HALF, Some(part)) }, refused(2));
        let there = |main: Vec<u8>| Case { main, supplementary: input(&[SHAPE, with_part(Some(part))]), work: 1 << 16, ..sound() };
        add("the same in the supplementary input", there(sound().main), refused(2));
        add("the same without any unit", there(Vec::new()), refused(2));
    }
    let there = input(&[with_part(Some((0, 6))), with_part(Some((6, 0)))]);
    add("sound parts in the supplementary input", Case { supplementary: there, work: 1 << 16, ..sound() }, both(""));
    let one = |ordinal: u64| Case { all: false, ordinal, ..sound() };
    let alone = |number: u64| format!("{}file 1 /src cue.c\nstats 1 2 1 0\n", function(number, 1));
    add("one unit reads its part, the first", one(0), alone(0));
    add("one unit reads its part, the second", one(1), alone(1));
    add("one unit that is not there", one(2), refused(4));
    add("of all units no ordinal is asked", Case { ordinal: 2, ..sound() }, both(""));
    add("of all units no ordinal is asked, the largest", Case { ordinal: LAST, ..sound() }, both(""));
    let sequenced = Shape { sequence: Some(44), ..with_part(SECOND_HALF) };
    add("places in a part count from its start", all(&[with_part(FIRST_HALF), sequenced]), both(""));
    let sequenced = Shape { sequence: Some(47), ..with_part(SECOND_HALF) };
    add("so no sequence of it begins at 47", all(&[with_part(FIRST_HALF), sequenced]), both("warning 4 78 2f\n"));

    // Files.
    let other = Shape { file: "dim.c", ..with_part(SECOND_HALF) };
    let files = format!("{}{}file 1 /src cue.c\nfile 2 /src dim.c\nstats 2 4 2 0\n", function(0, 1), function(1, 2));
    add("two files", all(&[with_part(FIRST_HALF), other]), files);
    add("two files, one number left", Case { first_file: u32::MAX, ..all(&[with_part(FIRST_HALF), other]) }, refused(15));
    let top = u64::from(u32::MAX);
    let files = format!("{}{}file {top} /src cue.c\nstats 2 4 2 0\n", function(0, top), function(1, top));
    add("one file, one number left", Case { first_file: u32::MAX, ..sound() }, files);

    // References into another unit, whichever is imported first.
    let by = |target: u64| Some((SECTION_REF, target));
    let first = Shape { origin: by(120), ..with_part(FIRST_HALF) };
    add("a name of the second unit", all(&[first, with_part(SECOND_HALF)]), both(""));
    let second = Shape { origin: by(20), ..with_part(SECOND_HALF) };
    add("a name of the first unit", all(&[with_part(FIRST_HALF), second]), both(""));

    // Units that are refused.
    let failed = Shape { row: FAILED_ROW, ..with_part(SECOND_HALF) };
    let missing = Shape { origin: Some((UNIT_REF, 21)), ..with_part(FIRST_HALF) };
    let cut = with_part(Some((0, 1)));
    add("the second unit refused", all(&[with_part(FIRST_HALF), failed]), refused(6));
    add("the first unit refused", all(&[missing, with_part(SECOND_HALF)]), refused(13));
    add("both refused", all(&[missing, failed]), refused(13));
    add("both refused, the other way round", all(&[failed, missing]), refused(6));
    add("a part that is cut", all(&[cut, with_part(SECOND_HALF)]), refused(7));
    add("the second part cut, and before it a row failed", all(&[with_part(FIRST_HALF), Shape { row: FAILED_ROW, ..cut }]), refused(6));
    let none = Case { records: 0, files: 0, warnings: 0, ..all(&[with_part(FIRST_HALF), failed]) };
    add("the second unit refused, the buffers having no byte", none, refused(6));

    // Work and buffers.
    let work = 64 * FIELDS + 4 * 6 + 32_768;
    add("work that is just enough", Case { work, ..sound() }, both(""));
    add("work a byte short: the whole program counts", Case { work: work - 1, ..sound() }, refused(5));
    let exact = Case { records: 270, files: 14, warnings: 0, ..sound() };
    add("buffers that are just enough", exact.clone(), both(""));
    add("records a byte short", Case { records: 269, ..exact.clone() }, refused(16));
    add("records as the first unit has", Case { records: 135, files: 13, ..exact.clone() }, refused(16));
    add("files a byte short", Case { files: 13, ..exact }, refused(17));
    let warned = || parts(None, None);
    let warnings = "warning 5 1 2\n".repeat(2);
    add("warnings of both units", Case { warnings: 40, ..warned() }, both(&warnings));
    add("warnings as the first unit has", Case { warnings: 20, ..warned() }, refused(18));

    // No unit.
    let bare = |work: u64| Case { main: Vec::new(), program: vec![0], ordinal: 7, work, records: 0, files: 0, warnings: 0, ..sound() };
    add("no unit, done", bare(32_772), "stats 0 0 0 0\n".to_owned());
    add("no unit, work a byte short", bare(32_771), refused(5));
    add("no unit, a misshapen supplementary input, before 5", Case { supplementary: vec![0x10], ..bare(0) }, refused(2));
    let long = Fields::default().unit(0, 100, 5, 4).compilation_directory(&[b'a'; 6114]).take();
    add("no unit, a supplementary input past a limit, before 5", Case { supplementary: long, ..bare(0) }, refused(3));
    cases.extend(misplaced());
    cases
}

/// A field 1e before and behind each other field of a unit, and of another size.
fn misplaced() -> Vec<Shown> {
    let mut fields = Fields::default();
    fields.unit(0, 100, 4, 4).compilation_directory(b"/w").text(0x1000, 0x3000).header(0, 32, 4, 4, 13, &OPCODE_LENGTHS);
    fields.directory(0, b"d").file_zero(0, 0, b"z.c").file(0, 0, b"a.c").row(0x1000, 1, 10, 0, PLAIN).row(0x1010, 0, 0, 0, END);
    fields.entry(11, 0, COMPILE_UNIT).string(NAME, b"dim").range(0x1000, 0x1010, 0).failure(1, b"cut");
    let fields = crate::generate::split(&fields.0);
    let part = |size: usize| (0x1e, [[0; 8].as_slice(), &[3, 0, 0, 0, 0, 0, 0, 0, 0]].concat()[..size].to_vec());
    let mut cases = Vec::new();
    let mut add = |name: &'static str, place: usize, sizes: &[usize]| {
        let mut with = fields.clone();
        sizes.iter().for_each(|&size| with.insert(place, part(size)));
        let listing = if (place, sizes) == (4, &[16]) { "file 1 /w a.c\nstats 0 0 0 0\n" } else { "refused 2\n" };
        cases.push((name, Case { program: PROGRAM.to_vec(), ..all(&[]) }, listing.to_owned()));
        cases.last_mut().unwrap().1.main = crate::generate::joined(&with);
    };
    for place in 0..=fields.len() {
        let name = if place == 4 { "a part behind the header" } else { "a part at another place" };
        add(name, place, &[16]);
    }
    add("two parts", 4, &[16, 16]);
    add("a part of 15 bytes", 4, &[15]);
    add("a part of 17 bytes", 4, &[17]);
    add("a part of no bytes", 4, &[0]);
    cases
}

#[test]
fn every_case_prints_its_listing() {
    crate::listing::assert_printed(cases());
}
