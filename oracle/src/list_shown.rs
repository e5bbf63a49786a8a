//! Cases of request E9 by hand, each with the listing that it must print: a version 5 unit whose subprogram, or an inlined entry below it, has a range list.

use crate::answer::work_of;
use crate::case::Case;
use crate::compose::*;
use crate::generate::{joined, split};
use crate::list_limits;
use crate::list_table::{LAST, Row, rows};

/// What a case shows, the case, and its listing.
pub type Shown = (&'static str, Case, String);

/// Text of every unit here: where small addresses lie, and below the largest of both sizes.
const TEXT: [(u64, u64); 3] = [(0x1000, 0x3000), (0xffff_f000, 0xffff_ffff), (LAST - 0xfff, LAST)];

/// Where a list is asked for.
#[derive(Clone, Copy, PartialEq)]
pub enum Of {
    Subprogram,
    Nameless,
    /// Below a subprogram that holds all text.
    Inlined,
    NamelessInlined,
}

/// A unit of so many entries, one of which has the list.
pub fn unit(fields: &mut Fields, number: u64, version: u8, of: Of, list: (u64, u64, u64, u8)) {
    fields.unit(100 * number, 100, version, 4);
    TEXT.iter().for_each(|&(start, end)| _ = fields.text(start, end));
    fields.entry(11, 0, COMPILE_UNIT).entry(20, 1, SUBPROGRAM);
    if of != Of::Nameless {
        fields.string(NAME, b"dim");
    }
    if let Of::Inlined | Of::NamelessInlined = of {
        fields.range(0x1000, 0x3000, 0).entry(30, 2, INLINED);
        if of == Of::Inlined {
            fields.string(NAME, b"fade");
        }
    }
    fields.list(list.0, list.1, list.2, list.3);
}

fn case(row: &Row, of: Of) -> Case {
    let mut fields = Fields::default();
    unit(&mut fields, 0, 5, of, (row.offset, row.base, row.place, row.size));
    Case { lists: row.lists.clone(), addresses: row.table.clone(), ..Case::new(fields.0, Vec::new(), Vec::new()) }
}

/// What a subprogram with these ranges prints: those that are live, as records; the others warn, but for dead ones outside all text.
fn of_subprogram(row: &Row) -> String {
    let (mut functions, mut warnings, mut rejected) = (Vec::new(), Vec::new(), 0);
    for &(start, end, dead) in &row.ranges {
        let inside = TEXT.iter().any(|text| text.0 <= start && end <= text.1);
        if start < end && inside && end - start <= u64::from(u32::MAX) {
            functions.push(format!("function {start:x} {end:x} dim\n"));
        } else {
            rejected += 1;
            if !dead && start != 0 {
                warnings.push(format!("warning 3 {start:x} {end:x}\n"));
            }
        }
    }
    if row.fault != 0 {
        rejected += 1;
        warnings.push(format!("warning 2 {}\n", row.fault));
    }
    format!("{}{}stats {} 0 0 {rejected}\n", functions.concat(), warnings.concat(), functions.len())
}

/// What the function prints below which an inlined entry has these ranges: nodes of those inside it, merged where they touch.
fn of_inlined(row: &Row, named: bool) -> String {
    if named && row.fault != 0 {
        return format!("refused {}\n", row.fault);
    }
    let mut inside: Vec<(u64, u64)> = row
        .ranges
        .iter()
        .filter(|range| range.0 < range.1 && 0x1000 <= range.0 && range.1 <= 0x3000)
        .map(|range| (range.0, range.1))
        .collect();
    inside.sort_unstable();
    let mut merged: Vec<(u64, u64)> = Vec::new();
    for (start, end) in inside {
        match merged.last_mut() {
            Some(last) if start <= last.1 => last.1 = last.1.max(end),
            _ => merged.push((start, end)),
        }
    }
    let function = "function 1000 3000 dim\n";
    if !named || merged.is_empty() {
        return format!("{function}stats 1 0 0 0\n");
    }
    let ranges: String = merged.iter().map(|(start, end)| format!("range {start:x} {end:x}\n")).collect();
    format!("{function}inline 0 0 0 dim\nrange 1000 3000\ninline 1 0 0 fade\n{ranges}stats 1 0 1 0\n")
}

pub fn cases() -> Vec<Shown> {
    let mut cases = Vec::new();
    for (number, row) in rows().iter().enumerate() {
        cases.push((row.name, case(row, Of::Subprogram), of_subprogram(row)));
        cases.push((row.name, case(row, Of::Inlined), of_inlined(row, true)));
        // Without a name nothing is read: some will do.
        if number % 8 == 0 {
            cases.push((row.name, case(row, Of::Nameless), "stats 0 0 0 0\n".to_owned()));
            cases.push((row.name, case(row, Of::NamelessInlined), of_inlined(row, false)));
        }
    }
    cases.extend(imports());
    cases.extend(list_limits::work());
    cases.extend(list_limits::misplaced());
    cases
}

/// A pair from 1000 hex of 10 hex bytes, and a cut list of the same range.
pub const SOUND: [u8; 4] = [4, 0, 0x10, 0];
const CUT: [u8; 4] = [4, 0, 0x10, 8];
const AT: (u64, u64, u64, u8) = (0, 0x1000, 0, 8);

pub fn with(main: Vec<u8>, lists: &[u8]) -> Case {
    Case { lists: lists.to_vec(), ..Case::new(main, Vec::new(), Vec::new()) }
}

/// Which lists an import reads, and when.
fn imports() -> Vec<Shown> {
    let mut cases = Vec::new();
    let mut add = |name: &'static str, case: Case, listing: &str| cases.push((name, case, listing.to_owned()));
    let one = |of: Of| {
        let mut fields = Fields::default();
        unit(&mut fields, 0, 5, of, AT);
        fields.0
    };
    let function = "function 1000 1010 dim\nstats 1 0 0 0\n";
    add("no list section, as in the listing program", with(one(Of::Subprogram), &[]), "warning 2 23\nstats 0 0 0 1\n");
    let off = Case { inlines: false, ..with(one(Of::Inlined), &CUT) };
    add("without inlines an inlined entry's list is not read", off, "function 1000 3000 dim\nstats 1 0 0 0\n");
    let outside = |start: u64, end: u64| {
        let mut fields = Fields::default();
        fields.unit(0, 100, 5, 4).text(0x1000, 0x3000).entry(11, 0, COMPILE_UNIT).entry(20, 1, SUBPROGRAM).string(NAME, b"dim");
        fields.range(start, end, 0).entry(30, 2, INLINED).string(NAME, b"fade").list(0, 0x1000, 0, 8);
        fields.0
    };
    add(
        "below a subprogram without a live range none is read",
        with(outside(0x4000, 0x4010), &CUT),
        "warning 3 4000 4010\nstats 0 0 0 1\n",
    );
    add("though all its ranges lie outside, the list is read", with(outside(0x2000, 0x2010), &CUT), "refused 23\n");
    let block = |list: bool| {
        let mut fields = Fields::default();
        fields.unit(0, 100, 5, 4).text(0x1000, 0x3000).entry(11, 0, COMPILE_UNIT).entry(20, 1, SUBPROGRAM).string(NAME, b"dim");
        fields.list(0, 0x1000, 0, 8).entry(30, 2, BLOCK).string(NAME, b"block");
        if list {
            fields.list(LAST, 0, 0, 4);
        }
        fields.0
    };
    add("a list of another tag is not read", with(block(true), &SOUND), function);
    // Both lists are faulty: that of the inlined entry, which the record of the first range needs, comes first.
    let mut both = Fields::default();
    unit(&mut both, 0, 5, Of::Subprogram, AT);
    both.entry(30, 2, INLINED).string(NAME, b"fade").list(4, 0x1000, 0, 8);
    add("the subprogram's fault is met behind its records", with(both.0.clone(), &[4, 0, 16, 8, 1, 0]), "refused 24\n");
    add("without a record before it, it alone is met", with(both.0, &[8, 0, 16, 8, 1, 0]), "warning 2 23\nstats 0 0 0 1\n");
    let mut mixed = Fields::default();
    unit(&mut mixed, 0, 5, Of::Subprogram, AT);
    mixed.entry(40, 1, SUBPROGRAM).string(NAME, b"zoom").range(0x2000, 0x2008, 0).failure(1, b"cut");
    add(
        "other entries have 19 and 1a",
        with(mixed.0, &SOUND),
        "function 1000 1010 dim\nfunction 2000 2008 zoom\nwarning 2 cut\nstats 2 0 0 1\n",
    );
    let two = |first: u8| {
        let mut fields = Fields::default();
        unit(&mut fields, 0, first, Of::Subprogram, AT);
        unit(&mut fields, 1, 5, Of::Subprogram, (LAST, 0x1000, 0, 8));
        fields.0
    };
    add("a list of a unit that is not imported is not read", with(two(5), &SOUND), function);
    add("of all units each is read", Case { all: true, ..with(two(5), &SOUND) }, "function 1000 1010 dim\nwarning 2 23\nstats 1 0 0 1\n");
    for version in [2, 3, 4] {
        add("a list in a unit of version 2 to 4", with(two(version), &SOUND), "refused 2\n");
    }
    let mut late = Fields::default();
    unit(&mut late, 0, 5, Of::Subprogram, AT);
    let (sound, mut old) = (late.0.clone(), Fields::default());
    unit(&mut late, 1, 4, Of::Subprogram, AT);
    unit(&mut old, 0, 4, Of::Subprogram, AT);
    add("in a unit that is not imported, too", with(late.0, &SOUND), "refused 2\n");
    add("in the supplementary input, too", Case { supplementary: old.0, ..with(sound.clone(), &SOUND) }, "refused 2\n");
    let mut there = Fields::default();
    unit(&mut there, 0, 5, Of::Inlined, (LAST, LAST, LAST, 4));
    add("one in the supplementary input is not read", Case { supplementary: there.0, ..with(sound, &SOUND) }, function);
    // 256 nested entries are kept; of 257 the last one's list is read before 14.
    for (name, last, listing) in [("257 nested entries", 0, "refused 14\n"), ("the 257th list's fault comes before 14", 1, "refused 23\n")]
    {
        let mut deep = Fields::default();
        unit(&mut deep, 0, 5, Of::Subprogram, AT);
        for depth in 0..257 {
            deep.entry(30 + depth, 2 + depth as u16, INLINED).string(NAME, b"f").list(
                if depth == 256 { last * 2 } else { 0 },
                0x1000,
                0,
                8,
            );
        }
        let wide = joined(
            &split(&deep.0).into_iter().map(|(tag, payload)| if tag == 0x10 { wide_unit() } else { (tag, payload) }).collect::<Vec<_>>(),
        );
        let case = with(wide, &SOUND);
        add(name, Case { work: work_of(&case), ..case }, listing);
    }
    cases
}

/// Field 10 of a unit of 1,000 bytes.
fn wide_unit() -> (u8, Vec<u8>) {
    split(&Fields::default().unit(0, 1000, 5, 4).take()).remove(0)
}

#[cfg(test)]
mod tests {
    use crate::{judged, listing};

    #[test]
    fn every_case_prints_its_listing() {
        for (number, (name, case, expected)) in super::cases().into_iter().enumerate() {
            let printed = String::from_utf8(listing::listing(&judged(&case).unwrap(), case.first_file)).unwrap();
            assert_eq!(printed, expected, "{number}: {name}");
        }
    }
}
