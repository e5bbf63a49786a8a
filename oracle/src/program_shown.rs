//! Cases of request E8 by hand, each with the listing that it must print: a unit of the shape of document 01's printed import, whose rows come from its
//! program, and units whose functions take up whatever rows a program gives.

use crate::case::{Case, Shown};
use crate::compose::*;
use crate::generate::{joined, split};

const LAST: u64 = u64::MAX;
const GCC: [u8; 5] = [1, 1, 1, 0xf6, 242];
const CLANG: [u8; 5] = [1, 1, 1, 0xfb, 14];
const END_SEQUENCE: &[u8] = &[0, 1, 1];
/// Rows of file 0 at 1000 and 1008 hex, lines 10 and 12, an end at 1010.
const PRINTED: &[u8] = &[0, 9, 2, 0, 0x10, 0, 0, 0, 0, 0, 0, 4, 0, 3, 9, 1, 2, 8, 3, 2, 1, 2, 8, 0, 1, 1];
/// A row at 1000 hex, one 4 further with file 0 and column 7, one behind a constant add with line 8, one by a special opcode; with clang's encoding.
const EVERY: &[u8] =
    &[0, 9, 2, 0, 0x10, 0, 0, 0, 0, 0, 0, 3, 9, 1, 4, 0, 5, 7, 6, 7, 2, 4, 10, 1, 8, 11, 12, 5, 3, 0x7e, 1, 9, 3, 0, 0, 2, 4, 1, 0x75];
/// Set address to 2^64 − 1.
const TO_LAST: &[u8] = &[0, 9, 2, 255, 255, 255, 255, 255, 255, 255, 255];

/// A unit, its number deciding where it stands.
#[derive(Clone)]
struct Shape {
    encoding: Option<[u8; 5]>,
    part: Option<(u64, u64)>,
    version: u8,
    offset: u64,
    base: u8,
    lengths: Vec<u8>,
    /// Whether it has the printed import's rows as fields.
    rows: bool,
    /// A function from 0 to 2000 hex that takes up all rows, in place of the printed import's.
    wide: bool,
}

fn shape(encoding: [u8; 5]) -> Shape {
    let lengths = OPCODE_LENGTHS.to_vec();
    Shape { encoding: Some(encoding), part: None, version: 5, offset: 0, base: 13, lengths, rows: false, wide: true }
}

impl Shape {
    fn write(&self, fields: &mut Fields, number: u64) {
        let start = 0x1000;
        fields.unit(100 * number, 100, 5, 4).text(0, 0x2000).header(self.offset, 32, self.version, 4, self.base, &self.lengths);
        self.encoding.iter().for_each(|encoding| _ = fields.encoding(*encoding));
        self.part.iter().for_each(|(start, length)| _ = fields.part(*start, *length));
        fields.directory(0, b"/src").file(0, 0, b"cue.c");
        if self.wide {
            fields.file(0, 0, b"b.c");
        }
        if self.rows {
            fields.row(start, 0, 10, 0, PLAIN).row(start + 8, 0, 12, 0, PLAIN).row(start + 16, 0, 0, 0, END);
        }
        fields.entry(11, 0, COMPILE_UNIT).entry(20, 1, SUBPROGRAM).string(NAME, b"dim");
        if self.wide {
            fields.range(0, 0x2000, 0);
            return;
        }
        fields.range(start, start + 16, 0);
        fields.entry(30, 2, INLINED).string(NAME, b"fade").attribute(CALL_FILE, UNSIGNED, 0).attribute(CALL_LINE, UNSIGNED, 11);
        fields.range(start + 4, start + 8, 0);
    }
}

fn input(shapes: &[Shape]) -> Vec<u8> {
    let mut fields = Fields::default();
    shapes.iter().zip(0..).for_each(|(shape, number)| shape.write(&mut fields, number));
    fields.0
}

fn case(shapes: &[Shape], program: &[&[u8]]) -> Case {
    Case::new(input(shapes), Vec::new(), program.concat())
}

/// The listing of the wide function with these rows and warnings.
fn listed(rows: &[&str], warnings: &[&str]) -> String {
    let lines = |word: &str, values: &[&str]| values.iter().map(|value| format!("{word} {value}\n")).collect::<String>();
    let (count, rows, warnings) = (rows.len(), lines("row", rows), lines("warning", warnings));
    format!("function 0 2000 dim\n{rows}file 1 /src cue.c\nfile 2 /src b.c\n{warnings}stats 1 {count} 0 0\n")
}

/// The listing of so many units of document 01's printed import.
fn import(units: usize) -> String {
    let function = "function 1000 1010 dim\nrow 1000 1 10 0\nrow 1008 1 12 0\ninline 0 0 0 dim\nrange 1000 1010\ninline 1 1 11 fade\nrange 1004 1008\n";
    format!("{}file 1 /src cue.c\nstats {units} {} {units} 0\n", function.repeat(units), 2 * units)
}

pub fn cases() -> Vec<Shown> {
    let mut cases = Vec::new();
    let refused = |number: u8| format!("refused {number}\n");
    let printed = Shape { wide: false, ..shape(GCC) };
    let rows = Shape { encoding: None, rows: true, ..printed.clone() };
    let mut add = |name: &'static str, case: Case, listing: String| cases.push((name, case, listing));
    add("document 01's printed import by its program", case(&[printed.clone()], &[PRINTED]), import(1));
    add("the same by row fields", case(&[rows.clone()], &[END_SEQUENCE]), import(1));

    // 21: before any instruction, behind 5.
    for (name, encoding) in
        [("line range 0", [1, 1, 1, 0xf6, 0]), ("no operation", [1, 0, 1, 0xf6, 242]), ("four operations", [1, 4, 0, 0xf6, 242])]
    {
        add(name, case(&[shape(encoding)], &[END_SEQUENCE]), refused(21));
        add("of an empty program", case(&[shape(encoding)], &[]), refused(21));
        add("before a cut instruction", case(&[shape(encoding)], &[&[0]]), refused(21));
        add("before the offset's 12", case(&[Shape { offset: LAST - 4, ..shape(encoding) }], &[]), refused(21));
        add("behind 5", Case { work: 0, ..case(&[shape(encoding)], &[]) }, refused(5));
    }

    // Instructions: the rows, or the refusal.
    for (name, encoding, base, program, expected) in programs() {
        let listing = match expected {
            Ok((rows, warnings)) => listed(rows, warnings),
            Err(number) => refused(number),
        };
        add(name, case(&[Shape { base, ..shape(encoding) }], &program), listing);
    }
    let known = Shape { lengths: Vec::new(), ..shape(GCC) };
    add("known opcodes without lengths", case(&[known], &[&[2, 5, 12, 1, 1], END_SEQUENCE]), listed(&["5 2 1 0"], &[]));
    let lengths = [vec![9; 12], vec![2]].concat();
    let unknown = Shape { base: 15, lengths, ..shape(GCC) };
    let program: [&[u8]; 2] = [&[13, 0x81, 1, 1, 14, 6, 7, 10, 11, 1], END_SEQUENCE];
    add("unknown opcodes as declared, none past the table", case(&[unknown], &program), listed(&["0 2 1 0"], &[]));
    let none_of_2 = Shape { lengths: vec![0, 0, 1, 1, 1, 0, 0, 0, 1, 0, 0, 1], ..shape(GCC) };
    add("opcode 2 declared 0: no sequence for the scan", case(&[none_of_2], &[&[1, 2, 5], END_SEQUENCE]), listed(&["0 2 1 0"], &["5 1 0"]));
    let two_of_2 = Shape { lengths: vec![0, 2, 1, 1, 1, 0, 0, 0, 1, 0, 0, 1], ..shape(GCC) };
    add("opcode 2 declared 2: a fault of the scan alone", case(&[two_of_2.clone()], &[&[2, 5, 0x80]]), refused(7));
    add("the same where the machine meets its own first", case(&[two_of_2], &[&[2, 5, 0, 0]]), refused(9));

    // "An instruction fault is met here before the sequence scan": before the 12 of a program that begins past 2^64 − 1.
    let late = |encoding: Option<[u8; 5]>| Shape { encoding, offset: LAST - 4, ..shape(GCC) };
    for (number, fault) in faults() {
        add("a fault before the offset's 12", case(&[late(Some(GCC))], &[&fault]), refused(number));
        add("without 1d 12 comes first", case(&[late(None)], &[&fault]), refused(12));
    }
    add("a sound program that begins past 2^64 - 1", case(&[late(Some(GCC))], &[END_SEQUENCE]), refused(12));

    // Several units, work, parts.
    let second = Shape { part: None, ..rows };
    let both = |ordinal: u64, all: bool| Case { ordinal, all, ..case(&[printed.clone(), second.clone()], &[PRINTED]) };
    let fields = split(&both(0, false).main).len() as u64;
    let [few, many] = [4, 64].map(|bytes: u64| 64 * fields + bytes * PRINTED.len() as u64 + 32_768);
    add("a unit with 1d beside one with rows", both(0, false), import(1));
    add("the one with rows", both(1, false), import(1));
    add("both", both(0, true), import(2));
    add("64 bytes for a byte of program", Case { work: many, ..both(0, false) }, import(1));
    add("one less", Case { work: many - 1, ..both(0, false) }, refused(5));
    add("4 bytes for the unit with rows", Case { work: few, ..both(1, false) }, import(1));
    add("one less for it", Case { work: few - 1, ..both(1, false) }, refused(5));
    add("of all units the one that needs most", Case { work: many, ..both(0, true) }, import(2));
    add("one less for all", Case { work: many - 1, ..both(0, true) }, refused(5));
    let size = PRINTED.len() as u64;
    let part = Shape { part: Some((1, size)), ..printed.clone() };
    add("the machine runs over the part", case(&[part], &[&[0], PRINTED, &[0, 0]]), import(1));
    let cut = Shape { part: Some((0, size - 1)), ..printed.clone() };
    add("a part that cuts an instruction", case(&[cut], &[PRINTED]), refused(8));
    let there = input(&[printed.clone()]);
    add("1d in the supplementary input", Case { supplementary: there, ..case(&[second.clone()], &[END_SEQUENCE]) }, import(1));
    let wrong = Shape { rows: true, ..printed.clone() };
    add("rows beside 1d", case(&[wrong.clone()], &[PRINTED]), refused(2));
    add("in a unit that is not imported", case(&[second.clone(), wrong.clone()], &[END_SEQUENCE]), refused(2));
    add("in the supplementary input", Case { supplementary: input(&[wrong]), ..case(&[second], &[END_SEQUENCE]) }, refused(2));
    cases.extend(misplaced());
    cases
}

/// Rows and warnings, or a refusal.
type Expected = Result<(&'static [&'static str], &'static [&'static str]), u8>;

/// Programs that need no header of their own, their encoding and opcode base.
fn programs() -> Vec<(&'static str, [u8; 5], u8, Vec<&'static [u8]>, Expected)> {
    const NINE: &[u8] = &[0x80; 9];
    const FULL: &[u8] = &[0xff; 9];
    const E: &[u8] = END_SEQUENCE;
    vec![
        ("nothing", GCC, 13, vec![], Ok((&[], &[]))),
        ("a row that no end follows", GCC, 13, vec![&[1]], Ok((&[], &[]))),
        ("the registers begin anew", GCC, 13, vec![&[5, 7, 3, 9, 1], E, &[1], E], Ok((&["0 2 10 7", "0 2 1 0"], &[]))),
        ("every opcode", CLANG, 13, vec![EVERY, E], Ok((&["1000 2 10 0", "1004 1 10 7", "1015 1 8 7", "101f 1 9 7"], &[]))),
        ("a special opcode of gcc's", GCC, 13, vec![&[0x75], E], Ok((&["0 2 95 0"], &[]))),
        ("of clang's", CLANG, 13, vec![&[0x75], E], Ok((&["7 2 2 0"], &[]))),
        ("minimum instruction length 4", [4, 1, 1, 0xfb, 14], 13, vec![&[2, 3, 8, 9, 1, 1, 1], E], Ok((&["151 2 1 0"], &[]))),
        ("minimum instruction length 0", [0, 1, 1, 0xfb, 14], 13, vec![&[2], FULL, &[1, 8, 0x75], E], Ok((&["0 2 2 0"], &[]))),
        ("a line that wraps", GCC, 13, vec![&[13], E], Ok((&[], &["7 0 fffffffffffffff7"]))),
        ("a line that wraps and comes back", GCC, 13, vec![&[3, 0x7e, 3, 2, 1], E], Ok((&["0 2 1 0"], &[]))),
        ("advance line by -1 in ten bytes", GCC, 13, vec![&[3], FULL, &[0x7f, 1], E], Ok((&["0 2 0 0"], &[]))),
        ("by -2^63", GCC, 13, vec![&[3], NINE, &[0x7f, 1], E], Ok((&[], &["7 0 8000000000000001"]))),
        ("a tenth byte of 01", GCC, 13, vec![&[3], FULL, &[1]], Err(10)),
        ("a tenth byte of ff", GCC, 13, vec![&[3], FULL, &[0xff]], Err(11)),
        ("column 65,536", GCC, 13, vec![&[5, 0x80, 0x80, 4, 1], E], Ok((&["0 2 1 65535"], &[]))),
        ("set address of two bytes", GCC, 13, vec![&[0, 3, 2, 0x34, 0x12, 1], E], Ok((&["1234 2 1 0"], &[]))),
        ("of none", GCC, 13, vec![&[0, 1, 2, 1], E], Ok((&["0 2 1 0"], &[]))),
        ("of nine, the last 0", GCC, 13, vec![&[0, 10, 2, 4, 0, 0, 0, 0, 0, 0, 0, 0, 1], E], Ok((&["4 2 1 0"], &[]))),
        ("of twenty, the last 0", GCC, 13, vec![&[0, 21, 2, 4], &[0; 19], &[1], E], Ok((&["4 2 1 0"], &[]))),
        ("of nine, the last 1", GCC, 13, vec![&[0, 10, 2, 4, 0, 0, 0, 0, 0, 0, 0, 1]], Err(22)),
        ("of twenty, the last 1", GCC, 13, vec![&[0, 21, 2, 4], &[0; 18], &[1]], Err(22)),
        ("the last address", GCC, 13, vec![TO_LAST, &[1, 2, 0, 9, 0, 0], TO_LAST, E], Ok((&[], &[]))),
        ("past it by advance pc", GCC, 13, vec![TO_LAST, &[2, 1]], Err(22)),
        ("by an advance that is multiplied", [2, 1, 1, 0xf6, 242], 13, vec![&[2], NINE, &[1]], Err(22)),
        ("by fixed advance", GCC, 13, vec![TO_LAST, &[9, 1, 0]], Err(22)),
        ("by constant add", GCC, 13, vec![TO_LAST, &[8]], Err(22)),
        ("by a special opcode", GCC, 13, vec![TO_LAST, &[255]], Err(22)),
        ("a fall without a row", GCC, 13, vec![&[2, 5, 0, 2, 2, 4]], Err(22)),
        ("the same address", GCC, 13, vec![&[2, 5, 0, 2, 2, 5, 1], E], Ok((&["5 2 1 0"], &[]))),
        ("a fall behind an end of sequence", GCC, 13, vec![&[2, 5], E, &[0, 2, 2, 4, 1], E], Ok((&["4 2 1 0"], &[]))),
        ("a fall, then a cut instruction", GCC, 13, vec![&[2, 5, 0, 2, 2, 4, 0]], Err(22)),
        ("a fall whose operand is cut", GCC, 13, vec![&[2, 5, 0, 3, 2, 4]], Err(7)),
        ("a longer end of sequence", GCC, 13, vec![&[1, 0, 3, 1, 0x55, 0x66]], Ok((&["0 2 1 0"], &[]))),
        ("extended opcodes that do nothing", GCC, 13, vec![&[0, 2, 3, 0x41, 0, 2, 4, 0x80, 0, 1, 0x80, 1], E], Ok((&["0 2 1 0"], &[]))),
        ("a defined file is none", GCC, 13, vec![b"\0\x0b\x03new.c\0\0\0\0\x0a\x04\x02\x01", E], Ok((&[], &["6 0 2"]))),
        ("base 0", CLANG, 0, vec![&[0xb4, 0, 1, 1]], Ok((&["c 2 8 0"], &[]))),
        ("base 1", CLANG, 1, vec![&[0x1a], E], Ok((&["1 2 7 0"], &[]))),
        ("base 9: 9 is special", CLANG, 9, vec![&[3, 9, 9, 9, 8], E], Ok((&["0 2 5 0", "0 2 0 0"], &[]))),
        ("base 10: 10 is special", CLANG, 10, vec![&[3, 9, 10], E], Ok((&["0 2 5 0"], &[]))),
        ("base 255", CLANG, 255, vec![&[3, 9, 8, 254, 255], E], Ok((&["0 2 5 0"], &[]))),
    ]
}

/// An instruction for each operand fault.
fn faults() -> [(u8, Vec<u8>); 6] {
    let nine = [0x80; 9].as_slice();
    [
        (7, vec![0]),
        (8, vec![0, 1]),
        (9, vec![0, 0]),
        (10, [&[2], nine, &[2]].concat()),
        (11, [&[2], nine, &[0x80]].concat()),
        (12, [&[0], [0xff; 9].as_slice(), &[1, 1]].concat()),
    ]
}

/// A field 1d before and behind each other field of a unit, of other sizes, with other flags.
fn misplaced() -> Vec<Shown> {
    let mut fields = Fields::default();
    fields.unit(0, 100, 4, 4).compilation_directory(b"/w").text(0x1000, 0x3000).header(0, 32, 4, 4, 13, &OPCODE_LENGTHS).part(0, 3);
    fields.directory(0, b"d").file_zero(0, 0, b"z.c").file(0, 0, b"a.c");
    fields.entry(11, 0, COMPILE_UNIT).string(NAME, b"dim").range(0x1000, 0x1010, 0).failure(1, b"cut");
    let fields = split(&fields.0);
    let encoding = |size: usize, flag: u8| (0x1d, [1, 1, flag, 0xf6, 242, 0][..size].to_vec());
    let mut cases = Vec::new();
    let mut add = |name: &'static str, with: &[(u8, Vec<u8>)], sound: bool| {
        let listing = if sound { "file 1 /w a.c\nstats 0 0 0 0\n" } else { "refused 2\n" };
        cases.push((name, Case::new(joined(with), Vec::new(), END_SEQUENCE.to_vec()), listing.to_owned()));
    };
    let put = |place: usize, more: &[(u8, Vec<u8>)]| [&fields[..place], more, &fields[place..]].concat();
    for place in 0..=fields.len() {
        let name = if place == 4 { "1d behind the header, before its part" } else { "1d at another place" };
        add(name, &put(place, &[encoding(5, 1)]), place == 4);
    }
    add("1d without a part behind it", &[&put(4, &[encoding(5, 0)])[..5], &fields[5..]].concat(), true);
    add("two of them", &put(4, &[encoding(5, 1), encoding(5, 1)]), false);
    for size in [0, 4, 6] {
        add("1d of another size", &put(4, &[encoding(size, 1)]), false);
    }
    add("a flag of 2", &put(4, &[encoding(5, 2)]), false);
    add("a flag of 255", &put(4, &[encoding(5, 255)]), false);
    cases
}

#[test]
fn every_case_prints_its_listing() {
    crate::listing::assert_printed(cases());
}
