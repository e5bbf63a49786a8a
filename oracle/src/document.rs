//! The cases of document 01's "Operands, paths and a printed import", each as an import, with the listing that
//! it must print; that of a Windows path is request E3's, and the columns, all 0, are E7's. Behind them those of request E4, a package
//! without debug data, and some of request E8, rows from a line program.

use crate::case::{Case, Shown};
use crate::compose::*;
use crate::program_shown;

/// Those of request E8's cases by hand that are recorded, by their names.
const PROGRAMS: [&str; 22] = [
    "document 01's printed import by its program",
    "every opcode",
    "line range 0",
    "four operations",
    "of nine, the last 1",
    "past it by advance pc",
    "by an advance that is multiplied",
    "by fixed advance",
    "by constant add",
    "by a special opcode",
    "a fall without a row",
    "a fault before the offset's 12",
    "a line that wraps",
    "column 65,536",
    "extended opcodes that do nothing",
    "opcode 2 declared 0: no sequence for the scan",
    "the one with rows",
    "both",
    "64 bytes for a byte of program",
    "one less",
    "the machine runs over the part",
    "rows beside 1d",
];

pub fn cases() -> Vec<Shown> {
    let nine = [0x80; 9].as_slice();
    let mut cases = vec![
        ("the printed import, dim and fade", printed(), PRINTED.to_owned()),
        program("operand e5 8e 26", &[2, 0xe5, 0x8e, 0x26, 0, 1, 1], &read(10)),
        program("operand nine 80, 01", &[&[2], nine, &[1, 0, 1, 1]].concat(), &read(10)),
        program("operand nine 80, 02", &[&[2], nine, &[2]].concat(), "refused 10\n"),
        program("operand nine 80, 80", &[&[2], nine, &[0x80]].concat(), "refused 11\n"),
        program("operand nine 80 alone", &[&[2], nine].concat(), "refused 7\n"),
        program("00", &[0], "refused 7\n"),
        program("00 00", &[0, 0], "refused 9\n"),
        program("00 01", &[0, 1], "refused 8\n"),
        program("00 02 80", &[0, 2, 0x80], "refused 7\n"),
        program("00, nine ff, 01, 01", &[&[0], [0xff; 9].as_slice(), &[1, 1]].concat(), "refused 12\n"),
        ("00 01 01 01 00 01 01 has sequence 44", lines(&[0, 1, 1, 1, 0, 1, 1], 2, 44), read(10)),
        ("00 01 01 01 00 01 01 has sequence 47", lines(&[0, 1, 1, 1, 0, 1, 1], 2, 47), read(20)),
        ("/a.c is \"/\", \"a.c\"", path(b"/a.c"), "file 1 / a.c\nstats 0 0 0 0\n".to_owned()),
        ("a/ is no file", path(b"a/"), "stats 0 0 0 0\n".to_owned()),
        ("C:\\b.c is \"C:\\\", \"b.c\", as E3 has it", path(b"C:\\b.c"), "file 1 C:\\ b.c\nstats 0 0 0 0\n".to_owned()),
        ("s/b.c is \"/w/s\", \"b.c\"", path(b"s/b.c"), "file 1 /w/s b.c\nstats 0 0 0 0\n".to_owned()),
    ];
    for (name, size, listing) in [
        ("a range of 4,294,967,295 bytes in text is live", 0xffff_ffff, "function 1000 100000fff dim\nstats 1 0 0 0\n"),
        ("one byte more is not", 0x1_0000_0000, "warning 3 1000 100001000\nstats 0 0 0 1\n"),
        ("an empty one is not", 0, "warning 3 1000 1000\nstats 0 0 0 1\n"),
    ] {
        let mut main = unit(1 << 40);
        main.entry(11, 0, COMPILE_UNIT).entry(20, 1, SUBPROGRAM).string(NAME, b"dim").range(0x1000, 0x1000 + size, 0);
        cases.push((name, call(main, &[]), listing.to_owned()));
    }
    cases.push(("4-8, 8-10, 20-30 merge to 4-10, 20-30", merged(), MERGED.to_owned()));
    cases.extend(bare());
    cases.extend(program_shown::cases().into_iter().filter(|case| PROGRAMS.contains(&case.0)));
    cases
}

/// E4: an empty main input, with each test that is left of it failing and passing, and each before those that follow it. Without any
/// input it takes 32,768 bytes of work.
fn bare() -> Vec<Shown> {
    let unit = unit(0x2000).take();
    let long = Fields::default().unit(0, 100, 5, 4).compilation_directory(&[b'a'; 6114]).take();
    let done = "stats 0 0 0 0\n";
    let case = |name, supplementary: &[u8], program: &[u8], ordinal, work, listing: &str| {
        let case = Case { ordinal, work, ..Case::new(Vec::new(), supplementary.to_vec(), program.to_vec()) };
        (name, case, listing.to_owned())
    };
    let mut cases = vec![
        case("E4: done, with buffers of no byte", &[], &[], 0, 32_768, done),
        case("E4: work a byte short", &[], &[], 0, 32_767, "refused 5\n"),
        case("E4: a cut instruction that is not read", &[], &[0], 0, 32_772, done),
        case("E4: the program's bytes count in work", &[], &[0], 0, 32_771, "refused 5\n"),
        case("E4: a supplementary input, sound", &unit, &[0, 0], 0, 64 * 2 + 8 + 32_768, done),
        case("E4: its fields count in work", &unit, &[0, 0], 0, 64 * 2 + 8 + 32_767, "refused 5\n"),
        case("E4: a supplementary input past a limit, before 5", &long, &[], 0, 0, "refused 3\n"),
        case("E4: another ordinal", &unit, &[0], 1, 57_344, "refused 4\n"),
        case("E4: another ordinal, before 5", &[], &[], 1, 0, "refused 4\n"),
        case("E4: an ordinal whose lower half is 0", &[], &[], 1 << 32, 32_768, "refused 4\n"),
        case("E4: the largest ordinal", &[], &[], u64::MAX, 32_768, "refused 4\n"),
        case("E4: a supplementary input, misshapen, before 4 and 5", &[0x10], &[], 1, 0, "refused 2\n"),
        case("E4: a supplementary input past a limit, before 4 and 5", &long, &[], 1, 0, "refused 3\n"),
    ];
    let first = &mut cases[0].1;
    (first.records, first.files, first.warnings) = (0, 0, 0);
    cases
}

/// A unit of 100 bytes with the text from 1000 hex.
fn unit(end: u64) -> Fields {
    let mut fields = Fields::default();
    fields.unit(0, 100, 5, 4).text(0x1000, end);
    fields
}

fn call(main: Fields, program: &[u8]) -> Case {
    Case::new(main.0, Vec::new(), program.to_vec())
}

const PRINTED: &str = "function 1000 1010 dim
row 1000 1 10 0
row 1008 1 12 0
inline 0 0 0 dim
range 1000 1010
inline 1 1 11 fade
range 1004 1008
file 1 /src cue.c
stats 1 2 1 0
";

fn printed() -> Case {
    let mut main = unit(0x2000);
    main.header(0, 32, 5, 4, 13, &OPCODE_LENGTHS).directory(0, b"/src").file(0, 0, b"cue.c");
    main.row(0x1000, 0, 10, 0, PLAIN).row(0x1008, 0, 12, 0, PLAIN).row(0x1010, 0, 0, 0, END);
    main.entry(11, 0, COMPILE_UNIT).entry(20, 1, SUBPROGRAM).string(NAME, b"dim").range(0x1000, 0x1010, 0);
    main.entry(30, 2, INLINED).string(NAME, b"fade").attribute(CALL_FILE, UNSIGNED, 0).attribute(CALL_LINE, UNSIGNED, 11);
    main.range(0x1004, 0x1008, 0);
    call(main, &[0, 1, 1])
}

/// A program at offset 44. Where it reads an operand it then ends a sequence, which a subprogram asks for.
fn program(name: &'static str, program: &[u8], listing: &str) -> Shown {
    (name, lines(program, 1, 44), listing.to_owned())
}

/// So many sequences of one row each, of lines 10, 20, .., and a subprogram that asks for one of them.
fn lines(program: &[u8], sequences: u64, requested: u64) -> Case {
    let mut main = unit(0x2000);
    main.header(0, 32, 5, 4, 13, &OPCODE_LENGTHS).file(0, 0, b"a.c");
    (1..=sequences).for_each(|number| _ = main.row(0x1000, 0, 10 * number, 0, PLAIN).row(0x1010, 0, 0, 0, END));
    main.entry(11, 0, COMPILE_UNIT).entry(20, 1, SUBPROGRAM).string(NAME, b"dim");
    main.attribute(STATEMENT_SEQUENCE, SECTION_OFFSET, requested).range(0x1000, 0x1010, 0);
    call(main, program)
}

fn read(line: u32) -> String {
    format!("function 1000 1010 dim\nrow 1000 1 {line} 0\nfile 1  a.c\nstats 1 1 0 0\n")
}

/// A file of directory 0 in version 4, the compilation directory being /w.
pub fn path(path: &[u8]) -> Case {
    let mut main = Fields::default();
    main.unit(0, 100, 5, 4).compilation_directory(b"/w").header(0, 32, 4, 4, 13, &OPCODE_LENGTHS).file(0, 0, path);
    call(main, &[])
}

const MERGED: &str = "function 0 40 dim
inline 0 0 0 dim
range 0 40
inline 1 0 0 fade
range 4 a
range 14 1e
stats 1 0 1 0
";

fn merged() -> Case {
    let mut main = Fields::default();
    main.unit(0, 100, 5, 4).text(0, 0x2000).entry(11, 0, COMPILE_UNIT);
    main.entry(20, 1, SUBPROGRAM).string(NAME, b"dim").range(0, 0x40, 0);
    main.entry(30, 2, INLINED).string(NAME, b"fade").range(4, 8, 0).range(8, 10, 0).range(20, 30, 0);
    call(main, &[])
}

#[cfg(test)]
mod tests {
    #[test]
    fn every_case_prints_its_listing() {
        crate::listing::assert_printed(super::cases());
    }

    #[test]
    fn every_named_case_is_there() {
        let cases = super::cases();
        super::PROGRAMS.iter().for_each(|name| assert!(cases.iter().any(|case| case.0 == *name), "{name}"));
    }
}
