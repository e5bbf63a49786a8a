//! Line headers with their directories, files and rows.

use super::LAST;
use super::damage::damage;
use super::program::program;
use crate::case::Case;
use crate::compose::*;
use crate::random::Random;

/// A line header with its files and rows, its program, and where the program's sequences begin.
#[derive(Default)]
pub struct Lines {
    pub fields: Fields,
    pub program: Vec<u8>,
    pub sequences: Vec<u64>,
    pub first_file: u64,
    pub files: u64,
}

pub(super) fn directory(random: &mut Random) -> &'static [u8] {
    random.pick(&[b"/src".as_slice(), b"/src", b"src", b"", b"/w/", b"lib/", b"C:\\w", b"c:/w", b"\\\\h\\s", b"//h/s", b"/"])
}

/// Whether files of a case have Windows paths, which set it apart from the plain Rust: one case of eight.
pub fn windows(random: &mut Random) -> bool {
    random.below(8) == 0
}

fn path(random: &mut Random, windows: bool) -> &'static [u8] {
    let usual = [b"a.c".as_slice(), b"b.c", b"cue.c", b"s/b.c", b"/a.c", b"../k.c"];
    let odd = [
        b"a/".as_slice(),
        b"",
        b"/x/y/z.c",
        b"//h/s.c",
        b"//q.c",
        b"x\\y.c",
        b"/",
        b"\\q.c",
        b"\\/q.c",
        b"C:b.c",
        b"C:q\\b.c",
        b"1:\\b.c",
        b"1:/q/b.c",
    ];
    if windows && random.chance(60) {
        random.pick(&WINDOWS)
    } else if random.chance(75) {
        random.pick(&usual)
    } else {
        random.pick(&odd)
    }
}

/// A file dim.c of C:\rig and one q.c of two backslashes are each written in several ways.
const WINDOWS: [&[u8]; 20] = [
    b"C:\\b.c",
    b"C:/q/b.c",
    b"C:/q.c",
    b"C:\\q.c",
    b"C:\\rig\\dim.c",
    b"C:\\rig\\dim.c",
    b"C:\\rig/dim.c",
    b"C:\\rig/dim.c",
    b"c:/rig\\dim.c",
    b"C:\\rig\\\\dim.c",
    b"C:\\rig\\",
    b"z:/",
    b"\\\\h\\s\\t.c",
    b"\\\\h/s.c",
    b"\\\\\\a/b",
    b"\\\\q.c",
    b"\\\\q.c",
    b"\\\\\\q.c",
    b"\\\\/q.c",
    b"\\\\",
];

pub fn lines(random: &mut Random, odd: u64, windows: bool) -> Lines {
    let mut lines = Lines::default();
    let (version, word) = (random.between(2, 5) as u8, random.pick(&[4, 8]));
    let (mut offset, length) = (random.pick(&[0, 0, 0, 100]), random.pick(&[32, 32, 60]));
    if random.chance(odd / 2) {
        offset = LAST - random.pick(&[20, 60, 80, 90]);
    }
    let mut lengths = OPCODE_LENGTHS.to_vec();
    if random.chance(20) {
        lengths.iter_mut().for_each(|length| *length = random.pick(&[0, 1, 1, 2]));
    }
    if random.chance(10) {
        lengths[2] = random.pick(&[0, 2]);
    }
    lengths.truncate(random.pick(&[12, 12, 12, 12, 9, 3, 0]));
    let fields = &mut lines.fields;
    fields.header(offset, length, version, word, random.pick(&[13, 13, 13, 13, 10, 4, 1, 0, 14, 255]), &lengths);
    tables(random, odd, windows, version, &mut lines);
    let ends = rows(random, odd, &mut lines);
    let ends = if random.chance(12) { random.below(4) } else { ends };
    let start = offset.wrapping_add(length).wrapping_add(before_header_end(version, word));
    program(random, odd, ends, start, &mut lines);
    lines
}

/// The directories and files of a header.
pub fn tables(random: &mut Random, odd: u64, windows: bool, version: u8, lines: &mut Lines) {
    let fields = &mut lines.fields;
    let failed = |random: &mut Random| u8::from(random.chance(odd / 2));
    for _ in 0..random.below(4) {
        fields.directory(failed(random), directory(random));
    }
    let number = |random: &mut Random| random.pick(&[0, 0, 1, 1, 2, 3, LAST]);
    if random.chance(50) {
        fields.file_zero(failed(random), number(random), path(random, windows));
    }
    lines.files = random.pick(&[0, 1, 1, 2, 3, 4]);
    lines.first_file = u64::from(version < 5);
    for _ in 0..lines.files {
        fields.file(failed(random), number(random), path(random, windows));
    }
}

/// The bytes from a line header's start to where its own length counts from.
pub fn before_header_end(version: u8, word: u8) -> u64 {
    (if word == 8 { 12 + 8 } else { 4 + 4 }) + if version == 5 { 4 } else { 2 }
}

/// A row's column.
pub fn column(random: &mut Random) -> u16 {
    let any = random.next() as u16;
    random.pick(&[0, 1, 9, u16::MAX, any])
}

/// Rows of some sequences; how many were ended.
fn rows(random: &mut Random, odd: u64, lines: &mut Lines) -> u64 {
    let (first, files, fields) = (lines.first_file, lines.files, &mut lines.fields);
    let plain = |random: &mut Random, fields: &mut Fields, address: u64| {
        let known = first + random.below(files.max(1));
        let file = if random.chance(5 + odd) { random.pick(&[0, 0, files + 1, LAST]) } else { known };
        let line = if random.chance(2 + odd) { random.pick(&[0, u64::from(u32::MAX), 1 << 32]) } else { random.between(10, 12) };
        fields.row(address, file, line, column(random), PLAIN);
        // An exact neighbour but for the column.
        if random.chance(12) {
            fields.row(address, file, line, column(random), PLAIN);
        }
    };
    let sequences = random.pick(&[0, 1, 1, 1, 2, 2, 3]);
    for _ in 0..sequences {
        let mut address = random.pick(&[0x1000, 0x1000, 0x1004, 0x1018, 0x1030, 0]);
        for _ in 0..random.below(8) {
            plain(random, fields, address);
            address = if random.chance(15) { address.saturating_sub(8) } else { address + random.pick(&[0, 0, 2, 4, 8, 0x10]) };
        }
        if random.chance(odd / 3) {
            fields.row(address, 0, 0, column(random), FAILED_ROW);
        }
        fields.row(address + random.pick(&[0, 4, 0x10, 0x40]), 0, 0, column(random), END);
    }
    for _ in 0..random.pick(&[0, 0, 0, 0, 1, 2]) {
        plain(random, fields, 0x1000);
    }
    sequences
}

/// A case for the rows of its first unit, with few other fields, and where the sequences of its program begin.
pub fn rows_case(random: &mut Random) -> (Case, Vec<u64>) {
    let odd = random.pick(&[0, 1, 4, 10, 20]);
    let windows = windows(random);
    let lines = if random.chance(96) { lines(random, odd, windows) } else { Lines::default() };
    let mut main = Fields::default();
    main.unit(0, 40, random.between(2, 5) as u8, random.pick(&[4, 8]));
    if random.chance(70) {
        main.compilation_directory(directory(random));
    }
    main.0.extend(&lines.fields.0);
    if random.chance(15) {
        main.entry(1, 0, COMPILE_UNIT);
    }
    // A second unit, whose files and rows are none of the first's.
    if random.chance(15) {
        main.unit(40, 40, 4, 4);
        main.0.extend(&self::lines(random, odd, windows).fields.0);
    }
    let mut case = Case::new(main.0, Vec::new(), lines.program);
    if random.chance(4) {
        damage(random, &mut case);
        case.supplementary.clear();
    }
    (case, lines.sequences)
}
