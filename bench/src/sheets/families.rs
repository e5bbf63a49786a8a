//! Sound inputs of one family each, and units of one shape.

use oracle::Case;
use oracle::compose::*;

use super::{START, case, column, header, subprogram, unit};

/// Functions of 61 rows each, a sequence for each, from eight files.
pub fn rows(count: u64) -> Case {
    let mut main = unit();
    header(&mut main);
    (0..8).for_each(|file| _ = main.file(0, 0, format!("part{file}.c").as_bytes()));
    let functions = (count - 14) / 65;
    let mut program = Vec::new();
    for function in 0..functions {
        let start = START + 256 * function;
        (0..61).for_each(|row| _ = main.row(start + 4 * row, (function + row / 16) % 8, 10 + 3 * row % 40, column(row), PLAIN));
        main.row(start + 256, 0, 0, 0, END);
        program.extend([0x4b; 61]);
        program.extend([0, 1, 1]);
    }
    main.entry(0, 0, COMPILE_UNIT);
    for function in 0..functions {
        let start = START + 256 * function;
        subprogram(&mut main, 1 + 8 * function, format!("function{function}").as_bytes(), start, start + 256);
    }
    case(main, Fields::default(), program)
}

/// Functions of five rows each, all rows of one sequence. The entries stand in the order of the rows, or in another.
pub fn functions(count: u64, order: fn(u64, u64) -> u64) -> Case {
    let mut main = unit();
    header(&mut main).file(0, 0, b"cue.c");
    let functions = (count - 7) / 8;
    (0..5 * functions).for_each(|row| _ = main.row(START + 8 * row, 0, 10 + row % 40, column(row), PLAIN));
    main.row(START + 40 * functions, 0, 0, 0, END).entry(0, 0, COMPILE_UNIT);
    for place in 0..functions {
        let start = START + 40 * order(place, functions);
        subprogram(&mut main, 1 + 8 * place, format!("function{place}").as_bytes(), start, start + 40);
    }
    let program = [vec![0x4b; 5 * functions as usize], vec![0, 1, 1]].concat();
    case(main, Fields::default(), program)
}

/// So many units of so many fields, all to be imported: functions of five rows each, of which every second has its name from the unit before; each
/// unit has its part of the program, and sixteen files are shared.
pub fn units(count: u64, fields: u64) -> Case {
    const SECTION: u64 = 1 << 20;
    let (mut main, mut program) = (Fields::default(), Vec::new());
    let functions = (fields - 8) / 8;
    for unit in 0..count {
        let text = START + 40 * functions * unit;
        let own = [vec![0x4b; 5 * functions as usize], vec![0, 1, 1]].concat();
        main.unit(SECTION * unit, SECTION, 5, 4).text(START, 1 << 40).header(0, 32, 5, 4, 13, &OPCODE_LENGTHS);
        main.part(program.len() as u64, own.len() as u64).directory(0, b"/rig/src").file(0, 0, format!("part{}.c", unit % 16).as_bytes());
        (0..5 * functions).for_each(|row| _ = main.row(text + 8 * row, 0, 10 + row % 40, column(row), PLAIN));
        main.row(text + 40 * functions, 0, 0, 0, END).entry(0, 0, COMPILE_UNIT);
        for place in 0..functions {
            let start = text + 40 * place;
            main.entry(1 + 8 * place, 1, SUBPROGRAM);
            if unit > 0 && place % 2 == 1 {
                main.attribute(ORIGIN, SECTION_REF, SECTION * (unit - 1) + 1 + 8 * (place - 1));
            } else {
                main.string(NAME, format!("function{place}").as_bytes());
            }
            main.range(start, start + 40, 0);
        }
        program.extend(own);
    }
    Case { all: true, ..case(main, Fields::default(), program) }
}

/// Definitions that refer to declarations, which have the name, the file and the line; half of the references are by section.
pub fn references(count: u64) -> Case {
    let mut main = unit();
    header(&mut main).file(0, 0, b"cue.c").file(0, 0, b"cue.h").entry(0, 0, COMPILE_UNIT);
    let pairs = (count - 7) / 7;
    for pair in 0..pairs {
        main.entry(1 + 8 * pair, 1, SUBPROGRAM).string(LINKAGE_NAME, format!("_ZN3cue{pair}Ev").as_bytes());
        main.attribute(DECL_FILE, UNSIGNED, pair % 2).attribute(DECL_LINE, UNSIGNED, 10 + pair);
    }
    for pair in 0..pairs {
        let kind = if pair % 2 == 0 { UNIT_REF } else { SECTION_REF };
        main.entry(1 + 8 * (pairs + pair), 1, SUBPROGRAM).attribute(SPECIFICATION, kind, 1 + 8 * (pair * 7_919 % pairs));
        main.range(START + 16 * pair, START + 16 * pair + 16, 0);
    }
    case(main, Fields::default(), Vec::new())
}

/// Functions with eight inlined calls each, three deep, whose names stand at the inlined functions themselves.
pub fn inlined(count: u64) -> Case {
    let mut main = unit();
    header(&mut main).file(0, 0, b"cue.c").file(0, 0, b"fade.h").entry(0, 0, COMPILE_UNIT);
    let functions = (count - 7) / 45;
    for function in 0..functions {
        main.entry(1 + 8 * function, 1, SUBPROGRAM).string(NAME, format!("inlined{function}").as_bytes());
    }
    for function in 0..functions {
        let (start, offset) = (START + 256 * function, 16 * (functions + function));
        subprogram(&mut main, offset, format!("function{function}").as_bytes(), start, start + 256);
        for (call, depth) in [2, 3, 4, 2, 3, 3, 4, 4].into_iter().enumerate() {
            let call = call as u64;
            main.entry(offset + 1 + call, depth, INLINED).attribute(ORIGIN, UNIT_REF, 1 + 8 * ((function + call * 31) % functions));
            main.attribute(CALL_FILE, UNSIGNED, call % 2).attribute(CALL_LINE, UNSIGNED, 20 + call);
            let (from, to) = [(0, 96), (8, 64), (16, 48), (100, 200), (104, 150), (152, 196), (160, 170), (172, 190)][call as usize];
            main.range(start + from, start + to, 0);
        }
    }
    case(main, Fields::default(), Vec::new())
}

/// A file in each of some directories, and a row of each.
pub fn files(count: u64) -> Case {
    let mut main = unit();
    header(&mut main);
    let directories = count / 33;
    (0..directories).for_each(|directory| _ = main.directory(0, format!("part{directory}/source").as_bytes()));
    let files = (count - directories - 12) / 2;
    (0..files).for_each(|file| _ = main.file(0, file % (directories + 1), format!("file{file}.cpp").as_bytes()));
    (0..files).for_each(|file| _ = main.row(START + 4 * file, file, 1, column(file), PLAIN));
    main.row(START + 4 * files, 0, 0, 0, END).entry(0, 0, COMPILE_UNIT);
    subprogram(&mut main, 1, b"function", START, START + 4 * files);
    case(main, Fields::default(), vec![0, 1, 1])
}
