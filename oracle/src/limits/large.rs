//! Cases over 64 KiB: the largest inputs, the longest programs, as many fields as there may be.

use crate::answer::{work_needed, work_of};
use crate::case::Case;
use crate::compose::*;

/// Cases over 64 KiB, the same for every seed: too large ones, and as many fields as there may be.
pub fn large() -> Vec<Case> {
    let limited = |fields: u64| {
        let mut main = Fields::default();
        main.unit(0, 100, 5, 4).header(0, 32, 5, 4, 13, &OPCODE_LENGTHS);
        (2..fields).for_each(|_| _ = main.directory(0, b""));
        Case { work: work_needed(fields as usize, 0, false), ..Case::new(main.take(), Vec::new(), Vec::new()) }
    };
    let mut unit = Fields::default();
    unit.unit(0, 100, 5, 4).header(0, 32, 5, 4, 13, &OPCODE_LENGTHS);
    let unit = unit.take();
    let program = |length: usize| Case { work: 1 << 25, ..Case::new(unit.clone(), Vec::new(), vec![1; length]) };
    vec![
        Case::new(vec![0x10; 16_777_217], Vec::new(), Vec::new()),
        Case::new(unit.clone(), vec![0x10; 16_777_217], Vec::new()),
        Case::new(vec![0x11; 16_777_216], Vec::new(), Vec::new()),
        program(4_194_305),
        program(4_194_304),
        limited(65_536),
        limited(65_537),
        // E4: the sizes of a package without debug data.
        Case { ordinal: 7, ..Case::new(Vec::new(), vec![0x10; 16_777_217], Vec::new()) },
        Case::new(Vec::new(), Vec::new(), vec![0; 4_194_305]),
        Case { work: 4 * 4_194_304 + 32_768, ..Case::new(Vec::new(), Vec::new(), vec![0; 4_194_304]) },
        // E11: the sizes of an import of all units, none among them; a part as the field past the limit; 256 units of 256 fields.
        Case { all: true, ..Case::new(Vec::new(), Vec::new(), vec![0; 4_194_305]) },
        last_part(1),
        last_part(0),
        halves(),
        many(256, 256),
        // E8: a row beside a 1d and a sound 1d as the field past the limit; the longest program, a row in each byte.
        last_encoding(true),
        last_encoding(false),
        longest_program(),
        // E9: the sizes of the two slices, of a package without debug data too; a 1f as the field past the limit, misshapen and sound.
        sections(4_194_305, 0),
        sections(0, 4_194_305),
        sections(4_194_304, 4_194_304),
        Case { main: Vec::new(), ..sections(4_194_305, 0) },
        Case { main: Vec::new(), ..sections(4_194_304, 4_194_304) },
        last_list(4),
        last_list(5),
    ]
}

/// A list section and an address table of so many bytes: base addresses, one after the other, and a pair at the end.
fn sections(lists: usize, addresses: usize) -> Case {
    let mut main = Fields::default();
    main.unit(0, 100, 5, 4)
        .text(0x1000, 0x2000)
        .entry(0, 0, COMPILE_UNIT)
        .entry(1, 1, SUBPROGRAM)
        .string(NAME, b"dim")
        .list(0, 0x1000, 0, 8);
    let mut bytes = [1, 0].repeat(lists / 2 + 1);
    bytes.truncate(lists);
    if let Some(end) = bytes.last_chunk_mut() {
        *end = [4, 0, 0x10, 0];
    }
    let mut table = 0x1000_u64.to_le_bytes().repeat(addresses / 8 + 1);
    table.truncate(addresses);
    let case = Case { lists: bytes, addresses: table, ..Case::new(main.take(), Vec::new(), Vec::new()) };
    Case { work: work_of(&case), ..case }
}

/// 65,536 fields, and behind them a field 1f of a unit of this version.
fn last_list(version: u8) -> Case {
    let mut main = Fields::default();
    main.unit(0, 100, 5, 4);
    (1..65_534).for_each(|_| _ = main.text(0x1000, 0x2000));
    main.unit(100, 100, version, 4).entry(0, 0, COMPILE_UNIT).list(0, 0, 0, 8);
    Case { work: 1 << 23, ..Case::new(main.take(), Vec::new(), Vec::new()) }
}

/// 65,536 fields, and behind them a row of a unit that has field 1d, or such a field.
fn last_encoding(row: bool) -> Case {
    const GCC: [u8; 5] = [1, 1, 1, 0xf6, 242];
    let mut main = Fields::default();
    main.unit(0, 100, 5, 4);
    (if row { 1..65_533 } else { 1..65_534 }).for_each(|_| _ = main.text(0x1000, 0x2000));
    main.unit(100, 100, 5, 4).header(0, 32, 5, 4, 13, &OPCODE_LENGTHS).encoding(GCC);
    if row {
        main.row(0x1000, 0, 1, 0, PLAIN);
    }
    Case { work: 1 << 23, ..Case::new(main.take(), Vec::new(), Vec::new()) }
}

/// A program of as many bytes as there may be, each but the last three a row.
pub fn longest_program() -> Case {
    let mut main = Fields::default();
    main.unit(0, 100, 5, 4).text(0x1000, 1 << 32).header(0, 32, 5, 4, 13, &OPCODE_LENGTHS).encoding([1, 1, 1, 0xfb, 14]);
    main.file(0, 0, b"a.c").file(0, 0, b"b.c").entry(0, 0, COMPILE_UNIT);
    main.entry(1, 1, SUBPROGRAM).string(NAME, b"dim").range(0x1_0000, 0x1_1000, 0);
    let mut program = [0x2e, 0x20, 0x21, 0x2d].repeat(1_048_576);
    program.truncate(4_194_304 - 3);
    program.extend([0, 1, 1]);
    let case = Case::new(main.take(), Vec::new(), program);
    Case { work: work_of(&case), ..case }
}

/// 65,536 fields, and behind them a part of an empty program that begins at so many bytes.
fn last_part(start: u64) -> Case {
    let mut main = Fields::default();
    main.unit(0, 100, 5, 4);
    (1..65_534).for_each(|_| _ = main.text(0x1000, 0x2000));
    main.unit(100, 100, 5, 4).header(0, 32, 5, 4, 13, &OPCODE_LENGTHS).part(start, 0);
    Case { all: true, work: 1 << 23, ..Case::new(main.take(), Vec::new(), Vec::new()) }
}

/// Two units, each with one half of the longest program.
fn halves() -> Case {
    const HALF: u64 = 2_097_152;
    let mut main = Fields::default();
    for half in 0..2 {
        main.unit(100 * half, 100, 5, 4).header(0, 32, 5, 4, 13, &OPCODE_LENGTHS).part(HALF * half, HALF);
    }
    Case { all: true, work: 1 << 25, ..Case::new(main.take(), Vec::new(), [0, 1, 1, 1].repeat(1_048_576)) }
}

/// So many units of so many fields each, a function in each, of one file or another.
fn many(units: u64, fields: u64) -> Case {
    let mut main = Fields::default();
    for unit in 0..units {
        let start = 0x1000 * (1 + unit);
        main.unit(1000 * unit, 1000, 5, 4).text(0x1000, 1 << 32).header(0, 32, 5, 4, 13, &OPCODE_LENGTHS).part(3 * unit, 3);
        main.file(0, 0, format!("{}.c", unit % 100).as_bytes());
        let rows = fields - 10;
        (0..rows).for_each(|row| _ = main.row(start + 4 * row, 0, 10 + row % 9, 0, PLAIN));
        main.row(start + 4 * rows, 0, 0, 0, END);
        main.entry(11, 0, COMPILE_UNIT).entry(20, 1, SUBPROGRAM).string(NAME, b"dim").range(start, start + 4 * rows, 0);
    }
    let program = [0, 1, 1].repeat(units as usize);
    let work = work_needed((units * fields) as usize, program.len(), false);
    let buffer = 1 << 21;
    Case { all: true, work, records: buffer, files: buffer, warnings: buffer, ..Case::new(main.take(), Vec::new(), program) }
}
