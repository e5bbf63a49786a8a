//! Cases at the limits of document 01 and of request E12, one step below and above them.

use crate::case::Case;
use crate::compose::*;
use crate::generate::{bad_instruction, column, windows};
use crate::grammar::{REASON_LIMIT, STRING_LIMIT};
use crate::random::Random;

mod large;
mod lines;
mod references;

pub use large::{large, longest_program};
use lines::{advance_line, file_numbers, instructions};
use references::{chain, offsets, ring, sources};

pub fn case(random: &mut Random) -> Case {
    match random.below(27) {
        0 => nested(random),
        1..6 => chain(random),
        6..9 => ring(random),
        9..11 => merging(random),
        11..13 => sizes(random),
        13 => strings(random),
        14 => depths(random),
        15 => many_units(random),
        16..18 => instructions(random),
        18..20 => offsets(random),
        20 => sources(random),
        21 => order(random),
        22..24 => advance_line(random),
        24 => longest(random),
        _ => file_numbers(random),
    }
}

/// A unit with a text, and its first entry.
fn start(main: &mut Fields, offset: u64, length: u64) {
    main.unit(offset, length, 5, 4).text(0x1000, 0x2000).entry(0, 0, COMPILE_UNIT);
}

fn call(main: Fields, supplementary: Fields) -> Case {
    Case::new(main.0, supplementary.0, Vec::new())
}

/// 254 to 258 inlined entries, each inside the one before; some that are not kept among them.
fn nested(random: &mut Random) -> Case {
    let mut main = Fields::default();
    start(&mut main, 0, 10_000);
    main.entry(1, 1, SUBPROGRAM).string(NAME, b"dim").range(0x1000, 0x1400, 0);
    let kept = random.between(254, 258);
    let passed_over = random.pick(&[0, 0, 0, 3]);
    for depth in 0..kept + passed_over {
        main.entry(2 + depth, 2 + depth as u16, INLINED);
        if depth >= passed_over {
            main.string(NAME, b"f");
        }
        main.range(0x1000 + depth, 0x1400, 0);
    }
    // A sibling near the top: all frames are popped.
    if random.chance(50) {
        main.entry(9_000, 2, INLINED).string(NAME, b"g").range(0x1010, 0x1014, 0);
    }
    call(main, Fields::default())
}

/// Inlined entries inside each other whose ranges meet at a few addresses: touching, overlapping, and from the
/// start of one of the ranges above to the end of another.
fn merging(random: &mut Random) -> Case {
    let mut main = Fields::default();
    start(&mut main, 0, 100);
    main.entry(1, 1, SUBPROGRAM).string(NAME, b"dim").range(0x1000, 0x1040, 0);
    let (mut depth, mut above) = (1, Vec::<(u64, u64)>::new());
    for entry in 2..random.between(4, 7) {
        depth = if random.chance(75) { depth + 1 } else { 2 };
        main.entry(entry, depth, INLINED).string(NAME, b"fade");
        let mut ranges = Vec::new();
        for _ in 0..random.between(1, 4) {
            let start = 0x1000 + 8 * random.below(8);
            let near = (start, start + random.pick(&[0, 4, 4, 8, 8, 16]));
            let (start, end) = if depth > 2 && random.chance(60) { (random.pick(&above).0, random.pick(&above).1) } else { near };
            main.range(start, end, u8::from(random.chance(10)));
            ranges.push((start, end));
        }
        above = ranges;
    }
    call(main, Fields::default())
}

/// Ranges of 2^32 − 1 bytes and one more or less, at 0 and at the end of the addresses, flagged or not.
fn sizes(random: &mut Random) -> Case {
    let mut main = Fields::default();
    main.unit(0, 100, 5, 4)
        .text(random.pick(&[0, 0x1000, 0x1000]), random.pick(&[1 << 40, 1 << 40, 0x1000 + (1 << 32), 0x1000 + (1 << 32) - 1]));
    if random.chance(30) {
        main.text(u64::MAX - (1 << 33), u64::MAX);
    }
    main.entry(0, 0, COMPILE_UNIT).entry(1, 1, SUBPROGRAM).string(NAME, b"dim");
    let mut ranges = Vec::new();
    for _ in 0..random.between(1, 3) {
        let start = random.pick(&[0, 0x1000, 0x1000, 0x1000, 0x1001, u64::MAX - (1 << 32), u64::MAX - (1 << 32) + 1]);
        let end = start.saturating_add(random.pick(&[(1 << 32) - 1, (1 << 32) - 1, 1 << 32, (1 << 32) - 2, 0, 1]));
        ranges.push((start, end));
        main.range(start, end, u8::from(random.chance(20)));
    }
    main.entry(2, 2, INLINED).string(NAME, b"fade");
    for &(start, end) in &ranges {
        main.range(start, end, u8::from(random.chance(50)));
    }
    call(main, Fields::default())
}

/// A string or a reason as long as it may be, or one byte longer, at each of the seven places of either input.
fn strings(random: &mut Random) -> Case {
    const REASON: u64 = 6;
    let chosen = random.below(REASON + 2).min(REASON);
    let limit = if chosen == REASON { REASON_LIMIT } else { STRING_LIMIT };
    let length = limit + random.pick(&[0, 0, 1]);
    let mut long = vec![b'a'; length];
    if windows(random) {
        long[..3].copy_from_slice(random.pick(&[b"C:\\", b"c:/", b"\\\\\\", b"\\\\a"]));
        long[length - 1 - random.pick(&[0, 1, 9])] = b'\\';
    }
    let failed = u8::from(random.chance(15));
    let input = |long: &[u8]| {
        let mut fields = Fields::default();
        let text = |place: u64| if place == chosen { long } else { b"b" };
        fields.unit(0, 100, 5, 4).compilation_directory(text(0)).text(0x1000, 0x2000).header(0, 32, 4, 4, 13, &OPCODE_LENGTHS);
        fields.directory(failed, text(1)).file_zero(failed, 1, text(2)).file(0, 1, text(3)).entry(0, 0, COMPILE_UNIT);
        fields.entry(1, 1, SUBPROGRAM).string(NAME, text(4)).string(0x1234, text(5)).range(0x1000, 0x1010, 0);
        fields.failure(1, text(REASON));
        fields
    };
    match random.below(3) {
        0 => call(input(b"b"), input(&long)),
        1 => call(input(&long), input(b"b")),
        _ => call(input(&long), Fields::default()),
    }
}

/// Longest strings that are joined to one path, or stand in records: the names of a function, a node and a call site, the last two of either
/// input.
fn longest(random: &mut Random) -> Case {
    let text = |random: &mut Random, byte: u8| vec![byte; if random.chance(60) { STRING_LIMIT } else { 1 }];
    let (mut main, mut supplementary) = (Fields::default(), Fields::default());
    let [compilation, directory, mut path] = [b'w', b'd', b'f'].map(|byte| text(random, byte));
    // Where the path has a directory of its own, the joined one is longest with the shortest basename.
    if path.len() > 2 && random.chance(50) {
        let place = path.len() - random.pick(&[2, 2, 3]);
        path[place] = b'/';
    }
    main.unit(0, 100, 5, 4).compilation_directory(&compilation).text(0x1000, 0x2000).header(0, 32, 4, 4, 13, &OPCODE_LENGTHS);
    main.directory(0, &directory).file(0, 1, &path).entry(0, 0, COMPILE_UNIT);
    main.entry(1, 1, SUBPROGRAM).string(NAME, &text(random, b'n')).range(0x1000, 0x1010, 0);
    let kind = random.pick(&[UNIT_REF, SUPPLEMENTARY_REF]);
    main.entry(2, 2, INLINED).attribute(ORIGIN, kind, 4).range(0x1004, 0x1008, 0);
    main.entry(3, 2, CALL_SITE).attribute(RETURN_PC, ADDRESS, 0x1004).attribute(CALL_ORIGIN, kind, 4);
    start(&mut supplementary, 0, 100);
    let named = if kind == UNIT_REF { &mut main } else { &mut supplementary };
    named.entry(4, 1, BLOCK).string(LINKAGE_NAME, &text(random, b'o'));
    call(main, supplementary)
}

/// Entries to depth 1,024 or one more; a depth that leaps.
fn depths(random: &mut Random) -> Case {
    let mut main = Fields::default();
    main.unit(0, 10_000, 5, 4).text(0x1000, 0x2000);
    let last = random.pick(&[1023, 1024, 1024, 1025]);
    for depth in 0..=last {
        main.entry(depth, depth as u16, if depth == 1 { SUBPROGRAM } else { BLOCK });
        if depth == 1 {
            main.string(NAME, b"dim").range(0x1000, 0x1010, 0);
        }
    }
    if random.chance(20) {
        main.entry(9_000, last as u16 + 2, BLOCK);
    } else if random.chance(50) {
        main.entry(9_000, 3, INLINED).string(NAME, b"f").range(0x1000, 0x1010, 0);
    }
    call(main, Fields::default())
}

/// 255 to 257 units; the ordinal at the last ones.
fn many_units(random: &mut Random) -> Case {
    let mut main = Fields::default();
    let units = random.between(255, 257);
    let overlap = random.chance(15);
    for unit in 0..units {
        let length = if overlap && unit == 100 { 11 } else { 10 };
        main.unit(10 * unit, length, 5, 4).text(0x1000, 0x2000);
        if unit + 1 == units {
            main.entry(0, 0, SUBPROGRAM).string(NAME, b"dim").range(0x1000, 0x1010, 0);
        }
    }
    let mut case = call(main, Fields::default());
    case.ordinal = random.pick(&[0, units - 1, units - 1, units, u64::MAX]);
    case
}

/// Several faults at once: the first in the Rust's order is the answer.
fn order(random: &mut Random) -> Case {
    let mut main = Fields::default();
    main.unit(0, 100, 5, 4).text(0x1000, 0x2000);
    main.header(if random.chance(25) { u64::MAX } else { 0 }, 32, random.pick(&[4, 5]), 4, 13, &OPCODE_LENGTHS);
    main.directory(u8::from(random.chance(20)), b"d").file_zero(u8::from(random.chance(20)), 1, b"z.c");
    main.file(u8::from(random.chance(15)), random.below(3), b"a.c").file(0, 1, b"a.c").file(0, 0, random.pick(&[b"".as_slice(), b"c.c"]));
    for _ in 0..random.between(1, 4) {
        let kind = if random.chance(8) { FAILED_ROW } else { PLAIN };
        main.row(0x1000, random.below(4), random.pick(&[5, 5, 1 << 32]), column(random), kind);
    }
    main.row(0x1010, 0, 0, 0, END).entry(0, 0, COMPILE_UNIT);
    main.entry(1, 1, SUBPROGRAM).string(NAME, if random.chance(90) { b"dim" } else { b"" });
    if random.chance(15) {
        main.attribute(LINKAGE_NAME, random.pick(&[FAILED, UNSIGNED]), 3);
    }
    main.range(0x1000, 0x1010, 0);
    main.entry(2, 2, CALL_SITE).attribute(RETURN_PC, if random.chance(15) { FAILED } else { ADDRESS }, 0x1004);
    main.attribute(CALL_ORIGIN, UNIT_REF, random.pick(&[1, 1, 1, 4, 5])).entry(3, 2, INLINED);
    if random.chance(80) {
        main.string(NAME, b"fade");
    }
    if random.chance(70) {
        main.range(0x1000, 0x1004, 0);
    }
    if random.chance(20) {
        main.failure(1, b"off the end");
    }
    main.entry(4, 1, SUBPROGRAM).string(NAME, b"zoom").failure(random.below(2) as u8, b"bad");
    let mut case = call(main, Fields::default());
    case.program = if random.chance(20) { bad_instruction(random) } else { vec![0, 1, 1] };
    case.first_file = if random.chance(15) { u32::MAX - random.below(3) as u32 } else { 1 };
    case
}
