//! Long searches: chains, rings and webs of references, in one input and through both.

use super::Value::{self, Number};
use super::{Add, LAST, Unit, both, chain, declarations, named, names, origin, references, unit};
use crate::compose::*;

/// So many entries, each with an origin to the one after the next or the next and a specification to the other; the last may have a name.
fn web(count: u64, kind: u8, far: bool, last: Vec<Value>) -> Vec<Unit> {
    let near = |place: u64| (kind, place + 1);
    let next = |place: u64| (kind, (place + 2).min(count));
    let mut entries: Vec<(u64, Vec<Value>)> =
        (1..count).map(|place| (place, if far { both(next(place), near(place)) } else { both(near(place), next(place)) })).collect();
    entries.push((count, last));
    unit(entries)
}

pub fn long_searches(add: &mut Add<'_>) {
    // Rings: of one entry, of two, of three that has a way out.
    let main = unit(vec![
        (1, origin(UNIT_REF, 1)),
        (2, origin(UNIT_REF, 3)),
        (3, origin(SECTION_REF, 2)),
        (4, origin(UNIT_REF, 5)),
        (5, origin(UNIT_REF, 6)),
        (6, both((UNIT_REF, 4), (UNIT_REF, 7))),
        (7, named(b"out")),
        (8, both((UNIT_REF, 8), (SECTION_REF, 8))),
    ]);
    let lines = &["name  2", "name  3", "name  3", "name out 5", "name out 5", "name out 5", "name  2"];
    add(&main, &[], names(&[1, 2, 3, 4, 5, 6, 8]), lines);
    // Chains of 60 to 66 targets.
    let lines = &["name end 61", "name end 62", "name end 63", "name end 64", "name  65", "name  65", "name  65"];
    for (kind, base) in [(1, 0), (2, 0), (2, 100), (3, 7)] {
        let kind = move |place: u64| match kind {
            1 => UNIT_REF,
            2 => SECTION_REF,
            _ => [UNIT_REF, SECTION_REF, SECTION_REF][(place % 3) as usize],
        };
        let starts: Vec<u64> = (60..67).map(|targets| base + 70 - targets).collect();
        add(&chain(70, kind, base), &[], names(&starts), lines);
        add(&chain(70, kind, base), &[], references(&starts), lines);
    }
    // Webs: what was followed once is not followed again, even if it was too deep then.
    for kind in [UNIT_REF, SECTION_REF] {
        add(&web(40, kind, false, named(b"end")), &[], names(&[1, 2, 39]), &["name end 40", "name end 39", "name end 2"]);
        add(&web(40, kind, true, named(b"end")), &[], names(&[1, 2, 39]), &["name end 21", "name end 20", "name end 2"]);
        for far in [false, true] {
            add(&web(40, kind, far, vec![]), &[], names(&[1, 2, 39]), &["name  40", "name  39", "name  2"]);
        }
        add(&web(66, kind, false, named(b"end")), &[], names(&[1, 2, 3]), &["name  66", "name  65", "name end 64"]);
        add(&web(66, kind, true, named(b"end")), &[], names(&[1, 2, 3]), &["name end 34", "name end 33", "name end 33"]);
    }
}

pub fn two_inputs(add: &mut Add<'_>) {
    let main = vec![
        Unit(
            0,
            30,
            vec![
                (1, origin(SUPPLEMENTARY_REF, 1)),
                (2, origin(SUPPLEMENTARY_REF, 2)),
                (3, origin(SUPPLEMENTARY_REF, 3)),
                (4, both((SUPPLEMENTARY_REF, 4), (UNIT_REF, 20))),
                // What the supplementary entry 5 refers to is outside all supplementary units, and then remembered as a main one.
                (5, both((SUPPLEMENTARY_REF, 5), (UNIT_REF, 20))),
                (6, both((SUPPLEMENTARY_REF, 5), (SECTION_REF, 20))),
                (7, both((SECTION_REF, 20), (SUPPLEMENTARY_REF, 5))),
                (8, both((SUPPLEMENTARY_REF, 6), (SECTION_REF, 2))),
                (9, both((SUPPLEMENTARY_REF, 15), (UNIT_REF, 20))),
                (10, both((SUPPLEMENTARY_REF, 14), (UNIT_REF, 20))),
                (11, both((SUPPLEMENTARY_REF, 7), (UNIT_REF, 8))),
                (12, vec![Number(CALL_ORIGIN, SUPPLEMENTARY_REF, 1)]),
                (13, vec![Number(CALL_ORIGIN, SUPPLEMENTARY_REF, 5)]),
                (14, both((SUPPLEMENTARY_REF, 8), (SUPPLEMENTARY_REF, 1))),
                (20, named(b"main")),
                (21, both((SUPPLEMENTARY_REF, 9), (UNIT_REF, 20))),
                (22, both((UNIT_REF, 23), (SUPPLEMENTARY_REF, 9))),
                (23, both((SUPPLEMENTARY_REF, 10), (UNIT_REF, 23))),
            ],
        ),
        Unit(30, 20, vec![(1, named(b"other"))]),
    ];
    let supplementary = vec![Unit(
        0,
        15,
        vec![
            (1, named(b"shared")),
            (2, origin(UNIT_REF, 1)),
            (3, origin(SECTION_REF, 1)),
            (4, origin(SUPPLEMENTARY_REF, 1)),
            (5, origin(SECTION_REF, 20)),
            (6, origin(SECTION_REF, 7)),
            (7, both((UNIT_REF, 8), (SECTION_REF, 2))),
            (8, origin(SECTION_REF, LAST)),
            (9, both((SECTION_REF, 12), (UNIT_REF, 12))),
            (10, vec![Number(LINKAGE_NAME, UNSIGNED, 1)]),
            (12, vec![]),
        ],
    )];
    let lines = &[
        "name shared 2",
        "name shared 3",
        "name shared 3",
        "name main 3",
        "name  2",
        "name  2",
        "name main 2",
        "name shared 6",
        "name main 2",
        "refused 13 1",
        "name shared 5",
        "name  1",
        "name  1",
        "name shared 3",
        "name main 5",
        "refused 6 3",
        "refused 6 2",
    ];
    add(&main, &supplementary, names(&[1, 2, 3, 4, 5, 6, 7, 8, 9, 10, 11, 12, 13, 14, 21, 22, 23]), lines);
    add(&main, &supplementary, references(&[12, 13, 1]), &["name shared 2", "name  2", "name  1"]);
    // Chains of 60 to 66 targets that go on in the supplementary input.
    let lines = &["name end 61", "name end 62", "name end 63", "name end 64", "name  65", "name  65", "name  65"];
    for kind in [UNIT_REF, SECTION_REF] {
        let main = unit((1..8).map(|place| (place, origin(SUPPLEMENTARY_REF, 12 - place))).collect());
        add(&main, &chain(70, |_| kind, 0), names(&[1, 2, 3, 4, 5, 6, 7]), lines);
    }
    // Inputs that are refused.
    add(&[Unit(5, 20, vec![]), Unit(0, 20, vec![])], &[], names(&[1]), &["refused 2"]);
    add(&unit(vec![]), &[Unit(LAST, 20, vec![])], names(&[1]), &["refused 2"]);
    add(&unit(vec![]), &[], names(&[0, 1]), &["no entry", "no entry"]);
}

/// Webs that nothing ends: each entry that can be is read, and those of the supplementary input twice.
pub fn rings(add: &mut Add<'_>) {
    // A ring of so many entries: the start is read once more, 1 more than there are references.
    for (count, line) in [(1, &["name  2"]), (2, &["name  3"]), (40, &["name  41"])] {
        let main = unit((1..=count).map(|place| (place, origin(UNIT_REF, place % count + 1))).collect());
        add(&main, &[], names(&[1]), line);
    }
    // Through the supplementary input: so many entries there, by unit, and by section from the last to the first. One reference leads there, and so each is
    // read as a supplementary target and as a main one: for so many references twice as many, less 1.
    let lines: [(u64, &[&str]); 4] = [
        (1, &["name  3", "name  3", "no line 3", "name  1"]),
        (2, &["name  5", "name  5", "no line 5", "name  1"]),
        (20, &["name  41", "name  41", "no line 41", "name  1"]),
        (40, &["name  65", "name  65", "no line 65", "name  1"]),
    ];
    for (count, lines) in lines {
        let last = |place: u64| if place == count { origin(SECTION_REF, 1) } else { origin(UNIT_REF, place + 1) };
        let main = vec![Unit(50, 10, vec![(1, origin(SUPPLEMENTARY_REF, 1)), (2, vec![Number(CALL_ORIGIN, SUPPLEMENTARY_REF, 1)])])];
        let queries = [names(&[51]), references(&[52]), declarations(&[51]), names(&[52])].concat();
        add(&main, &[Unit(0, 50, (1..=count).map(|place| (place, last(place))).collect())], queries, lines);
    }
    // A tree there instead of a row, so that the depth ends nothing: 255 of 128 references.
    let below = |place: u64| match place {
        1..64 => both((UNIT_REF, 2 * place), (UNIT_REF, 2 * place + 1)),
        127 => origin(SECTION_REF, 1),
        _ => vec![],
    };
    let main = vec![Unit(200, 10, vec![(1, origin(SUPPLEMENTARY_REF, 1))])];
    let tree = vec![Unit(0, 200, (1..128).map(|place| (place, below(place))).collect())];
    add(&main, &tree, [names(&[201]), declarations(&[201])].concat(), &["name  255", "no line 255"]);
    // Into the supplementary input by both entries, on there to what is outside its units and is not followed in the main input any more, and to the same
    // targets under both sources.
    let main =
        vec![Unit(0, 10, vec![(1, both((SUPPLEMENTARY_REF, 21), (UNIT_REF, 2))), (2, both((SUPPLEMENTARY_REF, 22), (SECTION_REF, 1)))])];
    let there = vec![Unit(20, 10, vec![(1, both((SECTION_REF, 2), (UNIT_REF, 2))), (2, both((SECTION_REF, 21), (SECTION_REF, 22)))])];
    add(&main, &there, [names(&[1, 2]), declarations(&[1, 2])].concat(), &["name  5", "name  6", "no line 5", "no line 6"]);
}
