//! Short searches: names at the entry itself, and behind one reference.

use super::Value::{Number, Text};
use super::{Add, LAST, Unit, both, named, names, origin, references, unit};
use crate::compose::*;

pub fn own_names(add: &mut Add<'_>) {
    let main = unit(vec![
        (1, vec![Text(NAME, b"plain"), Text(MIPS_LINKAGE_NAME, b"mips"), Text(LINKAGE_NAME, b"linkage")]),
        (2, vec![Text(NAME, b"plain"), Text(MIPS_LINKAGE_NAME, b"mips"), Text(LINKAGE_NAME, b"")]),
        (3, vec![Text(LINKAGE_NAME, b""), Text(NAME, b"plain"), Text(MIPS_LINKAGE_NAME, b"")]),
        (4, vec![Text(NAME, b""), Text(NAME, b"second"), Text(MIPS_LINKAGE_NAME, b"")]),
        (5, vec![]),
        (6, vec![Text(NAME, b" |\\\xff\x00")]),
        (9, vec![Text(NAME, b""), Number(ORIGIN, UNIT_REF, 1)]),
    ]);
    add(
        &main,
        &[],
        names(&[1, 2, 3, 4, 5, 6, 7, 9, 1999, 2000, LAST]),
        &[
            "name linkage 1",
            "name mips 1",
            "name plain 1",
            "name  1",
            "name  1",
            "name \\20\\7c\\5c\\ff\\00 1",
            "no entry",
            "name linkage 2",
            "no entry",
            "no entry",
            "no entry",
        ],
    );
    let main = unit(vec![
        (1, vec![Number(NAME, UNSIGNED, 3)]),
        (2, vec![Number(LINKAGE_NAME, FAILED, 0), Text(NAME, b"plain")]),
        (3, vec![Text(LINKAGE_NAME, b"linkage"), Number(NAME, FAILED, 0)]),
        (4, vec![Text(LINKAGE_NAME, b""), Number(MIPS_LINKAGE_NAME, ADDRESS, 0), Text(NAME, b"plain")]),
        (5, vec![Number(NAME, UNIT_REF, 3), Number(ORIGIN, UNIT_REF, 3)]),
        (6, both((UNIT_REF, 1), (UNIT_REF, 3))),
    ]);
    add(
        &main,
        &[],
        names(&[1, 2, 3, 4, 5, 6]),
        &["refused 6 1", "refused 6 1", "name linkage 1", "refused 6 1", "refused 6 1", "refused 6 2"],
    );
}

pub fn single_references(add: &mut Add<'_>) {
    let main = vec![
        Unit(
            10,
            20,
            vec![
                (1, named(b"first")),
                (2, both((UNIT_REF, 1), (SECTION_REF, 41))),
                (3, both((SECTION_REF, 41), (UNIT_REF, 1))),
                (4, both((UNIT_REF, 5), (UNIT_REF, 1))),
                (5, vec![]),
                (6, both((UNSIGNED, 1), (SECTION_REF, 11))),
                (7, both((FAILED, 0), (UNIT_REF, 5))),
                (8, both((SECTION_REF, 35), (UNIT_REF, 1))),
                (9, both((SECTION_REF, 25), (UNIT_REF, 1))),
                (10, both((UNIT_REF, 31), (UNIT_REF, 1))),
                (11, both((UNIT_REF, LAST - 10), (UNIT_REF, 1))),
                (12, both((UNIT_REF, LAST - 9), (UNIT_REF, 1))),
                (13, both((SECTION_REF, LAST), (UNIT_REF, 1))),
                (14, both((SUPPLEMENTARY_REF, 1), (UNIT_REF, 1))),
                (16, both((SECTION_REF, 9), (SECTION_REF, 60))),
            ],
        ),
        Unit(40, 20, vec![(1, named(b"second")), (2, origin(UNIT_REF, 1))]),
    ];
    let lines = &[
        "name first 1",
        "name first 2",
        "name second 2",
        "name first 3",
        "name  1",
        "name first 2",
        "name  2",
        "name first 2",
        "refused 13 1",
        "refused 13 1",
        "refused 13 1",
        "refused 12 1",
        "name first 2",
        "name first 2",
        "name  1",
    ];
    add(&main, &[], names(&[11, 12, 13, 14, 15, 16, 17, 18, 19, 20, 21, 22, 23, 24, 26]), lines);
    let call = |kind: u8, value: u64| vec![Text(NAME, b"own"), Number(CALL_ORIGIN, kind, value)];
    let main = vec![
        Unit(
            10,
            30,
            vec![
                (1, named(b"first")),
                (2, call(UNIT_REF, 1)),
                (3, call(SECTION_REF, 41)),
                (4, call(SUPPLEMENTARY_REF, 1)),
                (5, call(UNIT_REF, LAST)),
                (6, call(UNIT_REF, 31)),
                (7, call(SECTION_REF, 20)),
                (8, call(SECTION_REF, 39)),
                (9, call(SECTION_REF, LAST)),
                (11, call(UNSIGNED, 1)),
                (12, call(FAILED, 1)),
                (13, named(b"none")),
                (14, call(UNIT_REF, 14)),
                (15, vec![Number(CALL_ORIGIN, UNIT_REF, 15), Number(ORIGIN, UNIT_REF, 1)]),
                (16, vec![Number(CALL_ORIGIN, UNIT_REF, 17)]),
                (17, vec![Number(NAME, FAILED, 1)]),
            ],
        ),
        Unit(40, 20, vec![(1, named(b"second"))]),
    ];
    let lines = &[
        "name first 2",
        "name second 2",
        "name  1",
        "refused 12 1",
        "refused 13 1",
        "refused 13 1",
        "refused 13 1",
        "name  1",
        "name  1",
        "name  1",
        "name  1",
        "name own 2",
        "name first 3",
        "refused 6 2",
    ];
    add(&main, &[], references(&[12, 13, 14, 15, 16, 17, 18, 19, 21, 22, 23, 24, 25, 26]), lines);
}
