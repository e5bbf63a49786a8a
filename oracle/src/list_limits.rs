//! Cases of request E9 by hand, each with its listing: the work that lists need, and where field 1f may stand.

use crate::case::Case;
use crate::compose::*;
use crate::generate::{joined, split};
use crate::list_shown::{SOUND, Shown, with};

/// "Work needs 8 × list bytes × the unit's 1f fields (256 at most counted) more".
pub fn work() -> Vec<Shown> {
    let mut cases = Vec::new();
    let mut add = |name: &'static str, case: Case, listing: &str| cases.push((name, case, listing.to_owned()));
    let unit_of = |fields: &mut Fields, number: u64, lists: usize, encoded: bool| {
        fields.unit(1000 * number, 1000, 5, 4).text(0x1000, 0x3000);
        if encoded {
            fields.header(0, 32, 5, 4, 13, &OPCODE_LENGTHS).encoding([1, 1, 1, 0xfb, 14]);
        }
        fields.entry(11, 0, COMPILE_UNIT);
        for place in 0..lists as u64 {
            fields.entry(20 + place, 1, if place == 0 { SUBPROGRAM } else { BLOCK });
            if place == 0 {
                fields.string(NAME, b"dim");
            }
            fields.list(0, 0x1000, 0, 8);
        }
    };
    let lists = [SOUND.as_slice(), &[0; 6]].concat();
    let (bytes, program) = (lists.len() as u64, [0, 1, 1]);
    let function = |count: usize| format!("{}stats {count} 0 0 0\n", "function 1000 1010 dim\n".repeat(count));
    for (name, lists_of, counted) in
        [("one list", 1, 1), ("two lists, one of a block", 2, 2), ("256 lists", 256, 256), ("257 lists count as 256", 257, 256)]
    {
        let mut fields = Fields::default();
        unit_of(&mut fields, 0, lists_of, false);
        let needed = 64 * field_count(&fields.0) as u64 + 8 * bytes * counted + 32_768;
        add(name, Case { work: needed, ..with(fields.0.clone(), &lists) }, &function(1));
        add("one byte less", Case { work: needed - 1, ..with(fields.0.clone(), &lists) }, "refused 5\n");
        let without = 64 * field_count(&fields.0) as u64 + 32_768;
        add("no list bytes, nothing more", Case { work: without, ..with(fields.0, &[]) }, "warning 2 23\nstats 0 0 0 1\n");
    }
    // Two units: one with lists, one with a program that is run.
    let mut fields = Fields::default();
    unit_of(&mut fields, 0, 1, false);
    unit_of(&mut fields, 1, 3, false);
    unit_of(&mut fields, 2, 0, true);
    let both = Case { program: program.to_vec(), ..with(fields.0.clone(), &lists) };
    let base = 64 * field_count(&fields.0) as u64 + 4 * 3 + 32_768;
    for (ordinal, more, functions) in [(0, 8 * bytes, 1), (1, 3 * 8 * bytes, 1), (2, 60 * 3, 0)] {
        add("a unit's own lists and its own 1d", Case { ordinal, work: base + more, ..both.clone() }, &function(functions));
        add("one byte less", Case { ordinal, work: base + more - 1, ..both.clone() }, "refused 5\n");
    }
    let most = base + 3 * 8 * bytes;
    add("of all units the one that needs most", Case { all: true, work: most, ..both.clone() }, &function(2));
    add("one byte less for all", Case { all: true, work: most - 1, ..both }, "refused 5\n");
    let mut unit = Fields::default();
    unit_of(&mut unit, 0, 1, true);
    let needed = 64 * field_count(&unit.0) as u64 + 64 * 3 + 8 * bytes + 32_768;
    let case = Case { program: program.to_vec(), ..with(unit.0, &lists) };
    add("lists and 1d of one unit are added", Case { work: needed, ..case.clone() }, &function(1));
    add("one byte less of both", Case { work: needed - 1, ..case }, "refused 5\n");
    cases
}

/// A field 1f before and behind each other field of an entry, of other sizes.
pub fn misplaced() -> Vec<Shown> {
    let mut fields = Fields::default();
    fields.unit(0, 100, 5, 4).text(0x1000, 0x3000).header(0, 32, 5, 4, 13, &OPCODE_LENGTHS).file(0, 0, b"a.c").row(0x1000, 0, 1, 0, END);
    fields.entry(11, 0, COMPILE_UNIT).entry(20, 1, BLOCK).string(NAME, b"dim").attribute(DECL_LINE, UNSIGNED, 3);
    fields
        .entry(30, 1, BLOCK)
        .range(0x1000, 0x1010, 0)
        .range(0x1020, 0x1030, 0)
        .entry(40, 1, BLOCK)
        .failure(1, b"cut")
        .unit(100, 100, 5, 4);
    let fields = split(&fields.0);
    let list = |length: usize, size: u8| (0x1f, [[7; 24].as_slice(), &[size, 0]].concat()[..length].to_vec());
    let mut cases = Vec::new();
    let mut add = |name: &'static str, with: &[(u8, Vec<u8>)], sound: bool| {
        let listing = if sound { "file 1  a.c\nstats 0 0 0 0\n" } else { "refused 2\n" };
        cases.push((name, Case::new(joined(with), Vec::new(), vec![0, 1, 1]), listing.to_owned()));
    };
    let put = |place: usize, more: &[(u8, Vec<u8>)]| [&fields[..place], more, &fields[place..]].concat();
    for place in 0..=fields.len() {
        let (before, behind) = (place.checked_sub(1).map_or(0, |place| fields[place].0), fields.get(place).map_or(0, |field| field.0));
        let sound = matches!(before, 0x17 | 0x18) && matches!(behind, 0x10 | 0x17);
        add(if sound { "1f behind an entry's attributes" } else { "1f at another place" }, &put(place, &[list(25, 8)]), sound);
    }
    let place = fields.iter().position(|field| field.0 == 0x18).map_or(0, |place| place + 2);
    add("two of them", &put(place, &[list(25, 8), list(25, 8)]), false);
    add("in place of 19 and of 1a of the same entry alone", &put(place, &[list(25, 4)]), true);
    for length in [0, 8, 24, 26] {
        add("1f of another length", &put(place, &[list(length, 8)]), false);
    }
    for size in [0, 1, 2, 3, 5, 6, 7, 9, 16, 255] {
        add("another address size", &put(place, &[list(25, size)]), false);
    }
    cases
}
