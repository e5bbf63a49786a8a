//! The worst that the limits allow.

use oracle::Case;
use oracle::compose::*;

use super::{LIMIT, START, case, column, header, subprogram, unit};

pub fn texts(count: u64) -> Case {
    let mut main = Fields::default();
    main.unit(0, 1 << 32, 5, 4);
    (0..count - 200).for_each(|text| _ = main.text(START + 32 * text, START + 32 * text + 16));
    main.entry(0, 0, COMPILE_UNIT);
    (0..60).for_each(|function| subprogram(&mut main, 1 + function, b"f", START + 1024 * 32 * function, START + 1024 * 32 * function + 16));
    case(main, Fields::default(), Vec::new())
}

pub fn directories(count: u64) -> Case {
    let mut main = unit();
    header(&mut main);
    (0..count - 20).for_each(|_| _ = main.directory(0, b"part"));
    main.file(0, count - 30, b"a.c").row(START, 0, 1, 1, PLAIN).row(START + 16, 0, 0, 0, END).entry(0, 0, COMPILE_UNIT);
    subprogram(&mut main, 1, b"f", START, START + 16);
    case(main, Fields::default(), vec![0, 1, 1])
}

pub fn named_files(count: u64, name: fn(u64) -> Vec<u8>) -> Case {
    let mut main = unit();
    header(&mut main);
    (0..count - 20).for_each(|file| _ = main.file(0, 0, &name(file)));
    main.row(START, 7, 1, 1, PLAIN).row(START + 16, 0, 0, 0, END).entry(0, 0, COMPILE_UNIT);
    subprogram(&mut main, 1, b"f", START, START + 16);
    case(main, Fields::default(), vec![0, 1, 1])
}

pub fn spread_files(count: u64) -> Case {
    let mut main = unit();
    header(&mut main);
    let half = (count - 20) / 2;
    (0..half).for_each(|directory| _ = main.directory(0, format!("some/part/{directory}/source").as_bytes()));
    (0..half).for_each(|file| _ = main.file(0, file, b"main.cpp"));
    main.row(START, 7, 1, 1, PLAIN).row(START + 16, 0, 0, 0, END).entry(0, 0, COMPILE_UNIT);
    subprogram(&mut main, 1, b"f", START, START + 16);
    case(main, Fields::default(), vec![0, 1, 1])
}

/// One function has them all.
pub fn plain_rows(count: u64, place: fn(u64) -> u64) -> Case {
    let mut main = unit();
    header(&mut main).file(0, 0, b"a.c");
    (0..count - 20).for_each(|row| _ = main.row(START + 4 * place(row), 0, row, column(row), PLAIN));
    main.row(START + 4 * LIMIT, 0, 0, 0, END).entry(0, 0, COMPILE_UNIT);
    subprogram(&mut main, 1, b"f", START, START + 4 * LIMIT);
    case(main, Fields::default(), vec![0, 1, 1])
}

/// Each function asks for its own sequence, and starts between the two rows of it.
pub fn sequences(count: u64) -> Case {
    let mut main = unit();
    header(&mut main).file(0, 0, b"a.c");
    let functions = (count - 20) / 6;
    for function in 0..functions {
        main.row(START + 16 * function, 0, function, column(function), PLAIN).row(START + 16 * function + 16, 0, 0, 0, END);
    }
    main.entry(0, 0, COMPILE_UNIT);
    for function in 0..functions {
        main.entry(1 + function, 1, SUBPROGRAM).string(NAME, b"f").attribute(STATEMENT_SEQUENCE, SECTION_OFFSET, 44 + 3 * function);
        main.range(START + 16 * function + 8, START + 16 * function + 16, 0);
    }
    case(main, Fields::default(), [0, 1, 1].repeat(functions as usize))
}

pub fn entries(count: u64) -> Case {
    let mut main = unit();
    main.entry(0, 0, COMPILE_UNIT);
    (1..count - 4).for_each(|entry| _ = main.entry(entry, 1, SUBPROGRAM));
    case(main, Fields::default(), Vec::new())
}

pub fn attributes(count: u64) -> Case {
    let mut main = unit();
    main.entry(0, 0, COMPILE_UNIT).entry(1, 1, SUBPROGRAM);
    (0..count - 10).for_each(|_| _ = main.attribute(0x1234, UNSIGNED, 0));
    main.string(NAME, b"f").range(START, START + 16, 0);
    case(main, Fields::default(), Vec::new())
}

/// Each gives a record.
pub fn ranges(count: u64) -> Case {
    let mut main = unit();
    main.entry(0, 0, COMPILE_UNIT).entry(1, 1, SUBPROGRAM).string(NAME, b"f");
    (0..count - 10).for_each(|range| _ = main.range(START + 32 * range, START + 32 * range + 16, 0));
    case(main, Fields::default(), Vec::new())
}

fn inlined_below(range: u64) -> Fields {
    let mut main = unit();
    main.entry(0, 0, COMPILE_UNIT);
    subprogram(&mut main, 1, b"f", START, START + range);
    main.entry(2, 2, INLINED).string(NAME, b"g");
    main
}

pub fn inlined_ranges(count: u64, place: fn(u64) -> u64) -> Case {
    let mut main = inlined_below(64 * LIMIT);
    (0..count - 20).for_each(|range| _ = main.range(START + 32 * place(range), START + 32 * place(range) + 16, 0));
    case(main, Fields::default(), Vec::new())
}

/// They stay apart until the last ones come between them.
pub fn touching_ranges(count: u64) -> Case {
    let mut main = inlined_below(64 * LIMIT);
    for turn in 0..2 {
        let half = (count - 20) / 2;
        for range in 0..half {
            let place = START + 32 * (half - range) + 16 * turn;
            main.range(place, place + 16, 0);
        }
    }
    case(main, Fields::default(), Vec::new())
}

/// An inlined entry with many ranges, another below it in the same ranges.
pub fn ranges_below(count: u64) -> Case {
    let mut main = inlined_below(64 * LIMIT);
    (0..count).for_each(|range| _ = main.range(START + 32 * range, START + 32 * range + 16, 0));
    main.entry(3, 3, INLINED).string(NAME, b"h");
    (0..count).for_each(|range| _ = main.range(START + 32 * range, START + 32 * range + 8, 0));
    case(main, Fields::default(), Vec::new())
}

pub fn call_sites(count: u64) -> Case {
    let mut main = unit();
    main.entry(0, 0, COMPILE_UNIT);
    subprogram(&mut main, 1, b"f", START, START + LIMIT);
    for site in 0..(count - 20) / 3 {
        main.entry(2 + site, 2, CALL_SITE).attribute(RETURN_PC, ADDRESS, START + 1 + site).attribute(CALL_ORIGIN, UNIT_REF, 1);
    }
    case(main, Fields::default(), Vec::new())
}

/// Each entry refers to the next: 64 are read from each.
pub fn ring(count: u64) -> Case {
    let mut main = unit();
    main.entry(0, 0, COMPILE_UNIT);
    let entries = (count - 10) / 2;
    (0..entries).for_each(|entry| _ = main.entry(1 + entry, 1, SUBPROGRAM).attribute(ORIGIN, UNIT_REF, 1 + (entry + 1) % entries));
    case(main, Fields::default(), Vec::new())
}

/// Nameless entries that refer to two others each, as a tree whose every node is reached, and some more that refer to its root.
pub fn web(count: u64, searches: u64) -> Case {
    let mut main = unit();
    main.entry(0, 0, COMPILE_UNIT);
    let entries = (count - 10 - 2 * searches) / 3;
    tree(&mut main, entries, UNIT_REF);
    (0..searches).for_each(|search| _ = main.entry(entries + 2 + search, 1, SUBPROGRAM).attribute(ORIGIN, UNIT_REF, 1));
    case(main, Fields::default(), Vec::new())
}

fn tree(input: &mut Fields, entries: u64, kind: u8) {
    for entry in 0..entries {
        input.entry(1 + entry, 1, BLOCK);
        // Past the last entry a reference comes round to one that was followed.
        let child = |child: u64| 1 + if child < entries { child } else { child % 64 };
        input.attribute(ORIGIN, kind, child(2 * entry + 1)).attribute(SPECIFICATION, kind, child(2 * entry + 2));
    }
}

/// Every entry searches, and reaches every other.
pub fn tangle(entries: u64) -> Case {
    let mut main = unit();
    main.entry(0, 0, COMPILE_UNIT);
    for entry in 0..entries {
        main.entry(1 + entry, 1, SUBPROGRAM);
        main.attribute(ORIGIN, UNIT_REF, 1 + (entry * 769 + 13) % entries).attribute(
            SPECIFICATION,
            SECTION_REF,
            1 + (entry * 1_021 + 7) % entries,
        );
    }
    case(main, Fields::default(), Vec::new())
}

/// The tree stands in the supplementary input, where references by section look.
pub fn supplementary_web(count: u64) -> Case {
    let mut main = unit();
    main.entry(0, 0, COMPILE_UNIT);
    (0..16).for_each(|search| _ = main.entry(1 + search, 1, SUBPROGRAM).attribute(ORIGIN, SUPPLEMENTARY_REF, 1));
    let mut supplementary = unit();
    supplementary.entry(0, 0, COMPILE_UNIT);
    tree(&mut supplementary, (count - 10) / 3, SECTION_REF);
    case(main, supplementary, Vec::new())
}

/// Functions with 256 inlined entries inside each other, below them more entries to depth 1,024.
pub fn nested(count: u64) -> Case {
    let mut main = unit();
    main.entry(0, 0, COMPILE_UNIT);
    let mut offset = 1;
    for function in 0..(count - 10) / (3 + 3 * 256 + 766) {
        let start = START + 1024 * function;
        subprogram(&mut main, offset, b"f", start, start + 1024);
        for depth in 0..256 {
            main.entry(offset + 1 + depth, 2 + depth as u16, INLINED).string(NAME, b"g").range(start + depth, start + 1024 - depth, 0);
        }
        (0..766).for_each(|depth| _ = main.entry(offset + 257 + depth, 258 + depth as u16, BLOCK));
        offset += 1024;
    }
    case(main, Fields::default(), Vec::new())
}

/// The longest names, of 6,113 bytes, each searched behind a reference and given to a record.
pub fn long_names(count: u64) -> Case {
    let mut main = unit();
    main.entry(0, 0, COMPILE_UNIT);
    let name = vec![b'n'; 6_113];
    (0..count).for_each(|entry| _ = main.entry(1 + entry, 1, BLOCK).string(NAME, &name));
    for entry in 0..count {
        main.entry(1 + count + entry, 1, SUBPROGRAM).attribute(ORIGIN, UNIT_REF, 1 + entry).range(
            START + 16 * entry,
            START + 16 * entry + 16,
            0,
        );
    }
    case(main, Fields::default(), Vec::new())
}
