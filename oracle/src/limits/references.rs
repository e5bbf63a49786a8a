//! References at the limits: long ones, rings, offsets at the end of 64 bits, entries of both inputs at one offset.

use super::{call, start};
use crate::case::Case;
use crate::compose::*;
use crate::random::Random;

/// A row of references: 60 to 66 targets, by each kind, from each place that searches. The last target may be
/// reached by a short way too, and may stand in a unit with files of its own.
pub fn chain(random: &mut Random) -> Case {
    let (mut main, mut supplementary) = (Fields::default(), Fields::default());
    let targets = random.pick(&[60, 62, 63, 63, 64, 64, 65, 66]);
    let kind = random.pick(&[UNIT_REF, SECTION_REF, SUPPLEMENTARY_REF]);
    let last = if kind == UNIT_REF { 9 + targets } else { 2000 };
    start(&mut main, 0, 1000);
    main.entry(1, 1, SUBPROGRAM);
    let searching = random.pick(&[SUBPROGRAM, SUBPROGRAM, INLINED, CALL_SITE]);
    // With a name of its own a subprogram searches its declaration.
    if searching != SUBPROGRAM || random.chance(60) {
        main.string(NAME, b"dim");
    }
    if searching != SUBPROGRAM {
        main.range(0x1000, 0x1010, 0).entry(2, 2, searching).attribute(RETURN_PC, ADDRESS, 0x1004);
    }
    main.attribute(if searching == CALL_SITE { CALL_ORIGIN } else { ORIGIN }, kind, 10);
    if random.chance(40) {
        main.attribute(SPECIFICATION, kind, last);
    }
    main.range(0x1000, 0x1010, 0);
    // In the supplementary input references are by section, which look there.
    let inner = if kind == SUPPLEMENTARY_REF { SECTION_REF } else { kind };
    if kind == SUPPLEMENTARY_REF {
        start(&mut supplementary, 0, 1000);
    }
    let body = if kind == SUPPLEMENTARY_REF { &mut supplementary } else { &mut main };
    for target in 1..targets {
        body.entry(9 + target, 1, BLOCK).attribute(ORIGIN, inner, if target + 1 == targets { last } else { 10 + target });
    }
    // At times no entry starts where the last reference points.
    let missed = u64::from(random.chance(8));
    if kind == UNIT_REF {
        body.entry(last + missed, 1, BLOCK);
    } else {
        let version = random.pick(&[4, 5]);
        body.unit(2000, 100, 5, 4).header(0, 32, version, 4, 13, &OPCODE_LENGTHS).file(0, 0, b"far.c").file(0, 0, b"/b.c");
        body.entry(missed, 0, COMPILE_UNIT);
    }
    body.string(NAME, b"far").attribute(DECL_FILE, UNSIGNED, 1).attribute(DECL_LINE, UNSIGNED, 7);
    call(main, supplementary)
}

/// References that come round: each entry refers to others, one of them has a name.
pub fn ring(random: &mut Random) -> Case {
    let mut main = Fields::default();
    start(&mut main, 0, 1000);
    let entries = random.between(2, 9);
    let named = random.below(entries + 2);
    for entry in 0..entries {
        main.entry(1 + 3 * entry, 1, random.pick(&[SUBPROGRAM, SUBPROGRAM, BLOCK]));
        if entry == named {
            main.string(random.pick(&[NAME, LINKAGE_NAME, MIPS_LINKAGE_NAME]), b"dim");
            main.attribute(DECL_FILE, UNSIGNED, 1).attribute(DECL_LINE, UNSIGNED, random.pick(&[4, 1 << 32]));
        }
        for reference in [ORIGIN, SPECIFICATION] {
            if random.chance(80) {
                let target = if random.chance(50) { (entry + 1) % entries } else { random.below(entries) };
                main.attribute(reference, random.pick(&[UNIT_REF, SECTION_REF]), 1 + 3 * target);
            }
        }
        main.range(0x1000 + 0x10 * entry, 0x1010 + 0x10 * entry, 0);
    }
    call(main, Fields::default())
}

/// Entry offsets at the end of 64 bits, references to where no entry starts, and outside all units.
pub fn offsets(random: &mut Random) -> Case {
    let (mut main, mut supplementary) = (Fields::default(), Fields::default());
    let offset = random.pick(&[0, 100, u64::MAX - 100, u64::MAX - 99]);
    start(&mut main, offset, 100);
    main.entry(10, 1, SUBPROGRAM);
    if random.chance(50) {
        main.string(NAME, b"dim");
    }
    let kind = random.pick(&[UNIT_REF, UNIT_REF, SECTION_REF, SUPPLEMENTARY_REF]);
    let target = random.pick(&[10, 11, 20, 98, 99, 100, 101, u64::MAX]);
    main.attribute(ORIGIN, kind, if kind == UNIT_REF { target } else { offset.wrapping_add(target) });
    main.attribute(SPECIFICATION, UNIT_REF, random.pick(&[20, 20, 100, 101, u64::MAX]));
    main.range(0x1000, 0x1010, 0);
    main.entry(20, 1, SUBPROGRAM).string(NAME, b"fade");
    main.attribute(DECL_FILE, UNSIGNED, 3).attribute(DECL_LINE, UNSIGNED, 4);
    if random.chance(60) {
        start(&mut supplementary, offset, 50);
        supplementary.entry(10, 1, SUBPROGRAM).string(LINKAGE_NAME, b"zoom");
    }
    call(main, supplementary)
}

/// The two inputs have entries at the same offsets. What is followed in one is remembered of one of them.
pub fn sources(random: &mut Random) -> Case {
    let entries = random.between(3, 6);
    let input = |random: &mut Random, kinds: &[u8], named: u64| {
        let mut fields = Fields::default();
        start(&mut fields, 0, 100);
        for entry in 0..entries {
            fields.entry(10 + 10 * entry, 1, SUBPROGRAM);
            if entry == named {
                fields.string(NAME, random.pick(&[b"dim".as_slice(), b"fade"]));
            }
            for reference in [ORIGIN, SPECIFICATION] {
                if random.chance(85) {
                    fields.attribute(reference, random.pick(kinds), 10 + 10 * random.below(entries));
                }
            }
            fields.range(0x1000 + 0x10 * entry, 0x1010 + 0x10 * entry, 0);
        }
        fields
    };
    let named = entries - 1;
    let main = input(random, &[SUPPLEMENTARY_REF, SUPPLEMENTARY_REF, SECTION_REF, UNIT_REF], named);
    let of_supplementary = random.pick(&[named, 99]);
    let supplementary = input(random, &[SECTION_REF, SECTION_REF, UNIT_REF, SUPPLEMENTARY_REF], of_supplementary);
    call(main, supplementary)
}
