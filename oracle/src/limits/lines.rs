//! Line programs and files at the limits: instructions one by one, long operands, the last file numbers.

use super::call;
use crate::case::Case;
use crate::compose::*;
use crate::generate::{bad_instruction, before_header_end, column, padded_advance, windows};
use crate::random::Random;

/// Instructions one by one: each opcode under several bases, each fault, offsets at the end of 64 bits.
pub fn instructions(random: &mut Random) -> Case {
    let mut main = Fields::default();
    let (version, word) = (random.pick(&[4, 5]), random.pick(&[4, 8]));
    let before = before_header_end(version, word);
    let base = random.pick(&[13, 13, 10, 9, 4, 3, 0]);
    let mut program = Vec::new();
    for _ in 0..random.below(3) {
        if random.chance(20) {
            program.extend(padded_advance(random, &[0, 1, 0x7f]));
            continue;
        }
        let opcode = if random.chance(30) { base } else { random.between(1, 13) as u8 };
        program.extend([opcode, random.pick(&[1, 9, 0x80]), random.pick(&[1, 2])]);
    }
    if random.chance(60) {
        program.extend([0, 1, 1]);
    }
    if random.chance(50) {
        program.extend(bad_instruction(random));
    }
    // The program's own offset may be past the end, or that of what follows a sequence.
    let offset = if random.chance(25) { u64::MAX - before - random.pick(&[0, 1, 31, 32, 33, 34, 35, 36, 38]) } else { 0 };
    let lengths: Vec<u8> =
        OPCODE_LENGTHS.iter().map(|&length| if random.chance(25) { random.pick(&[0, 1, 2, 3]) } else { length }).collect();
    main.unit(0, 100, 5, 4).text(0x1000, 0x2000);
    main.header(offset, 32, version, word, base, &lengths);
    main.file(u8::from(random.chance(5)), 0, b"a.c").row(0x1000, 1, 10, column(random), PLAIN);
    main.row(0x1010, 0, 0, column(random), if random.chance(5) { FAILED_ROW } else { END });
    main.entry(0, 0, COMPILE_UNIT).entry(1, 1, SUBPROGRAM).string(NAME, b"dim");
    main.attribute(STATEMENT_SEQUENCE, UNSIGNED, offset.wrapping_add(before).wrapping_add(32)).range(0x1000, 0x1010, 0);
    Case::new(main.0, Vec::new(), program)
}

/// Opcode 3 with operands of about ten bytes, under each count that a header may declare for it; where the second sequence begins
/// depends on where they end.
pub fn advance_line(random: &mut Random) -> Case {
    let mut lengths = OPCODE_LENGTHS;
    lengths[2] = random.pick(&[1, 1, 1, 1, 0, 2, 2]);
    let tenth = match lengths[2] {
        2 => [0, 1, 1, 0x7f].as_slice(),
        _ if random.chance(50) => &[0, 0x7f],
        _ => &[1, 2, 0x40, 0x7e, 0x80, 0x81, 0xff],
    };
    let mut program = Vec::new();
    for _ in 0..random.between(1, 2) {
        let mut advance = padded_advance(random, tenth);
        if random.chance(20) {
            advance.truncate(random.between(1, 10) as usize);
            advance.push(random.pick(&[0, 0x7f, 0x80, 0xff]));
        }
        program.extend(advance);
        program.extend(vec![random.pick(&[0, 1, 0x7f]); usize::from(lengths[2].saturating_sub(1))]);
    }
    program.extend([0, 1, 1]);
    let second = 44 + program.len() as u64;
    program.extend([3, 0x7f, 0, 1, 1]);
    if random.chance(10) {
        program.truncate(random.between(1, 12) as usize);
    }
    let mut main = Fields::default();
    main.unit(0, 100, 5, 4).text(0x1000, 0x2000).header(0, 32, 5, 4, random.pick(&[13, 13, 13, 13, 4, 3]), &lengths).file(0, 0, b"a.c");
    for line in [10, 20] {
        main.row(0x1000, 0, line, column(random), PLAIN).row(0x1010, 0, 0, 0, END);
    }
    main.entry(0, 0, COMPILE_UNIT).entry(1, 1, SUBPROGRAM).string(NAME, b"dim").attribute(STATEMENT_SEQUENCE, SECTION_OFFSET, second);
    main.range(0x1000, 0x1010, 0);
    Case::new(main.0, Vec::new(), program)
}

/// File numbers at the end of 32 bits, from the header, from file 0 and from a unit behind a reference.
pub fn file_numbers(random: &mut Random) -> Case {
    let mut main = Fields::default();
    let files = random.between(1, 3);
    let version = random.pick(&[4, 5]);
    // Two names each are one file's.
    let names = if windows(random) {
        [b"C:\\d\\a.c".as_slice(), b"c:/b.c", b"C:\\d/a.c", b"C:\\d\\"]
    } else {
        [b"a.c".as_slice(), b"b.c", b"a.c", b"c.c"]
    };
    main.unit(0, 100, 5, 4).text(0x1000, 0x2000).header(0, 32, version, 4, 13, &OPCODE_LENGTHS);
    main.file_zero(0, 0, random.pick(&names));
    (0..files).for_each(|_| _ = main.file(0, 0, random.pick(&names)));
    main.row(0x1000, random.pick(&[0, 1]), 10, column(random), PLAIN).row(0x1008, 0, 0, 0, END);
    main.entry(0, 0, COMPILE_UNIT).entry(1, 1, SUBPROGRAM).string(NAME, b"dim").attribute(ORIGIN, SECTION_REF, 200);
    main.range(random.pick(&[0x1000, 0x1010]), 0x1020, 0);
    main.unit(200, 100, 5, 4).header(0, 32, version, 4, 13, &OPCODE_LENGTHS).file(0, 0, random.pick(&names)).file(0, 0, b"far.c");
    main.entry(0, 0, SUBPROGRAM).attribute(DECL_FILE, UNSIGNED, random.below(3)).attribute(DECL_LINE, UNSIGNED, 3);
    let mut case = call(main, Fields::default());
    case.program = vec![0, 1, 1];
    case.first_file = u32::MAX - random.below(6) as u32;
    case
}
