//! Searches of declarations, with the files of their units.

use super::Value::Number;
use super::{Unit, both, chain, declarations, input, origin, unit};
use crate::calls::searches::Call;
use crate::compose::*;

/// Declarations: the files of a unit are known where it was reached by a section offset, and may refuse then.
pub fn declared(calls: &mut Vec<(Call, &'static [&'static str])>) {
    let at = |file: u64, line: u64| vec![Number(DECL_FILE, UNSIGNED, file), Number(DECL_LINE, UNSIGNED, line)];
    let main = vec![
        Unit(
            0,
            20,
            vec![
                (1, at(1, 7)),
                (2, origin(UNIT_REF, 1)),
                (3, origin(SECTION_REF, 1)),
                (4, origin(SECTION_REF, 2)),
                (5, both((SECTION_REF, 6), (SECTION_REF, 7))),
                (6, at(1, 1 << 32)),
                (7, at(2, 8)),
                (8, both((SECTION_REF, 9), (UNIT_REF, 10))),
                (9, at(3, 1)),
                (10, [at(0, 1), origin(UNIT_REF, 7)].into_iter().flatten().collect()),
                (11, both((SUPPLEMENTARY_REF, 1), (SECTION_REF, 1))),
                (12, both((SECTION_REF, 31), (SUPPLEMENTARY_REF, 1))),
                (13, both((SECTION_REF, 1), (SUPPLEMENTARY_REF, 1))),
                (14, both((SECTION_REF, 19), (SUPPLEMENTARY_REF, 1))),
            ],
        ),
        Unit(30, 20, vec![(1, vec![])]),
    ];
    let lines: &[&str] = &[
        "no line 1",
        "no line 2",
        "line 1 7 2",
        "line 1 7 3",
        "line 2 8 3",
        "no line 1",
        "no line 1",
        "no line 4",
        "no line 1",
        "no line 2",
        "refused 6 2",
        "refused 6 3",
        "line 1 7 2",
        "refused 13 1",
        "no entry",
    ];
    let queries = declarations(&[1, 2, 3, 4, 5, 6, 7, 8, 9, 10, 11, 12, 13, 14, 15]);
    let files: &[(u8, &[u8])] = &[(0, b"/a.c"), (0, b"/b.c")];
    let supplementary = input(&unit(vec![(1, at(1, 1))]), &[(0, b"/c.c"), (1, b"")]);
    calls.push((Call { main: input(&main, files), supplementary, queries }, lines));
    // Chains of 60 to 66 targets; the 64th is read, its unit's files included.
    let mut main = chain(70, |_| SECTION_REF, 0);
    main[0].2[69].1 = at(1, 7);
    let starts: Vec<u64> = (60..67).map(|targets| 70 - targets).collect();
    let lines = &["line 1 7 61", "line 1 7 62", "line 1 7 63", "line 1 7 64", "no line 65", "no line 65", "no line 65"];
    calls.push((Call { main: input(&main, files), supplementary: Vec::new(), queries: declarations(&starts) }, lines));
}
