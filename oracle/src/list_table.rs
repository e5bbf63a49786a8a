//! Small range lists by hand, with what the Standard's 2.17.3 and request E9 make of them: ranges with their tombstone flags, then a fault or none.

pub const LAST: u64 = u64::MAX;
/// The largest address of 4 bytes.
pub const LAST4: u64 = u32::MAX as u64;

/// Field 1f's numbers, the two slices, and what is read.
pub struct Row {
    pub name: &'static str,
    pub size: u8,
    pub offset: u64,
    pub base: u64,
    pub place: u64,
    pub lists: Vec<u8>,
    pub table: Vec<u8>,
    pub ranges: Vec<(u64, u64, bool)>,
    /// 0 where there is none.
    pub fault: u8,
}

/// An address of so many bytes.
fn address(size: u8, value: u64) -> Vec<u8> {
    value.to_le_bytes()[..usize::from(size)].to_vec()
}

/// Nine bytes of a LEB128 number that goes on.
const NINE: [u8; 9] = [0x80; 9];

pub fn rows() -> Vec<Row> {
    let mut rows = Vec::new();
    for (size, largest) in [(4, LAST4), (8, LAST)] {
        kinds(&mut rows, size);
        faults(&mut rows, size);
        dead(&mut rows, size, largest);
        wide(&mut rows, size, largest);
    }
    rows
}

/// The table of these rows: 1000, 1010, 2000 hex and the largest address.
fn table(size: u8) -> Vec<u8> {
    let largest = if size == 4 { LAST4 } else { LAST };
    [0x1000, 0x1010, 0x2000, largest].map(|value| address(size, value)).concat()
}

fn row(name: &'static str, size: u8, lists: &[&[u8]], ranges: &[(u64, u64, bool)], fault: u8) -> Row {
    Row { name, size, offset: 0, base: 0x1000, place: 0, lists: lists.concat(), table: table(size), ranges: ranges.to_vec(), fault }
}

/// Every kind of entry.
fn kinds(rows: &mut Vec<Row>, size: u8) {
    let at = |value: u64| address(size, value);
    let mut add = |name: &'static str, lists: &[&[u8]], ranges: &[(u64, u64, bool)]| rows.push(row(name, size, lists, ranges, 0));
    let live = |start: u64, end: u64| (start, end, false);
    add("end of list", &[&[0]], &[]);
    add("offset_pair over the field's base", &[&[4, 0, 0x10, 0]], &[live(0x1000, 0x1010)]);
    add("base_address", &[&[5], &at(0x2000), &[4, 0x10, 0x20, 0]], &[live(0x2010, 0x2020)]);
    add("base_addressx", &[&[1, 2, 4, 0x10, 0x20, 0]], &[live(0x2010, 0x2020)]);
    add("startx_endx", &[&[2, 0, 1, 0]], &[live(0x1000, 0x1010)]);
    add("startx_length", &[&[3, 1, 0x10, 0]], &[live(0x1010, 0x1020)]);
    add("start_end", &[&[6], &at(0x1100), &at(0x1180), &[0]], &[live(0x1100, 0x1180)]);
    add("start_length", &[&[7], &at(0x1100), &[0x90, 1, 0]], &[live(0x1100, 0x1190)]);
    add(
        "bases change nothing but offset pairs",
        &[&[5], &at(0x2000), &[2, 0, 1, 1, 0, 4, 2, 4, 0]],
        &[live(0x1000, 0x1010), live(0x1002, 0x1004)],
    );
    add("behind the end nothing is read", &[&[4, 0, 0x10, 0, 4, 0x10, 0x20, 8]], &[live(0x1000, 0x1010)]);
    add("operands padded to ten bytes", &[&[4], &NINE, &[0, 0x90], &NINE[1..], &[0, 0]], &[live(0x1000, 0x1010)]);
    add(
        "ranges as they come: touching, again, backwards",
        &[&[4, 8, 0x10, 4, 0, 8, 4, 0, 8, 4, 8, 0, 4, 4, 4, 0]],
        &[live(0x1008, 0x1010), live(0x1000, 0x1008), live(0x1000, 0x1008), live(0x1008, 0x1000), live(0x1004, 0x1004)],
    );
    add("a range from 0", &[&[5], &at(0), &[4, 0, 8, 0]], &[live(0, 8)]);
    rows.push(Row { offset: 3, ..row("a list offset", size, &[&[8, 8, 8, 4, 0, 0x10, 0]], &[live(0x1000, 0x1010)], 0) });
    let shifted = [[9; 5].to_vec(), table(size)].concat();
    rows.push(Row { place: 5, table: shifted, ..row("addresses at an odd place", size, &[&[2, 0, 1, 0]], &[live(0x1000, 0x1010)], 0) });
}

/// 23, 7, 10, 11 and 24, alone and in their order.
fn faults(rows: &mut Vec<Row>, size: u8) {
    let at = |value: u64| address(size, value);
    let cut = &at(0x1100)[..usize::from(size) - 1];
    let first = [(0x1000, 0x1010, false)];
    let mut add = |name: &'static str, lists: &[&[u8]], fault: u8| rows.push(row(name, size, lists, &[], fault));
    add("no byte at all", &[], 23);
    for kind in [8, 9, 0x10, 0x80, 255] {
        add("an unknown kind", &[&[kind, 0]], 23);
    }
    add("base_address cut", &[&[5], cut], 23);
    add("base_address without a byte", &[&[5]], 23);
    add("start_end cut in its start", &[&[6], cut], 23);
    add("start_end cut in its end", &[&[6], &at(0x1100), cut], 23);
    add("start_length cut in its start", &[&[7], cut], 23);
    add("start_length cut before its length", &[&[7], &at(0x1100)], 7);
    add("start_length cut in its length", &[&[7], &at(0x1100), &[0x80]], 7);
    for kind in [1, 2, 3, 4] {
        add("an operand without a byte", &[&[kind]], 7);
        add("a first operand cut", &[&[kind, 0x80]], 7);
        add("a first operand that overflows", &[&[kind], &NINE, &[2]], 10);
        add("a first operand that overflows and goes on", &[&[kind], &NINE, &[0x82]], 10);
        add("a first operand that is overlong", &[&[kind], &NINE, &[0x81]], 11);
    }
    for kind in [2, 3, 4] {
        add("a second operand without a byte, before 24", &[&[kind, 9]], 7);
        add("a second operand cut, before 24", &[&[kind, 9, 0x80]], 7);
        add("a second operand that overflows, before 24", &[&[kind, 9], &NINE, &[2]], 10);
        add("a second operand that is overlong, before 24", &[&[kind, 9], &NINE, &[0x80]], 11);
    }
    add("a length that overflows", &[&[7], &at(0x1100), &NINE, &[2]], 10);
    add("a length that is overlong", &[&[7], &at(0x1100), &NINE, &[0x80]], 11);
    add("base_addressx past the table, for no pair", &[&[1, 4, 0]], 24);
    add("startx_endx, the start past the table", &[&[2, 4, 0, 0]], 24);
    add("startx_endx, the end past the table", &[&[2, 0, 4, 0]], 24);
    add("startx_length past the table", &[&[3, 4, 0, 0]], 24);
    add("the largest index", &[&[3], &[0xff; 9], &[1, 0, 0]], 24);
    for (name, lists) in [("no end entry", [4, 0, 0x10].as_slice()), ("an unknown kind behind a range", &[4, 0, 0x10, 8])] {
        rows.push(row(name, size, &[lists], &first, 23));
    }
    rows.push(row("24 behind a range", size, &[&[4, 0, 0x10, 1, 4]], &first, 24));
    rows.push(row("7 behind a range", size, &[&[4, 0, 0x10, 4, 0]], &first, 7));
    let short = table(size)[..usize::from(size) - 1].to_vec();
    rows.push(Row { table: short, ..row("a table a byte short", size, &[&[1, 0, 0]], &[], 24) });
    rows.push(Row { table: at(0x1000), ..row("a table of one address", size, &[&[1, 0, 0]], &[], 0) });
    rows.push(Row { table: Vec::new(), ..row("an empty table", size, &[&[1, 0, 0]], &[], 24) });
    for place in [1, 4 * u64::from(size), LAST] {
        rows.push(Row { place, ..row("addresses past the table", size, &[&[1, 3, 0]], &[], 24) });
    }
    for offset in [1, 2, LAST] {
        rows.push(Row { offset, ..row("a list offset at the section's end or past it", size, &[&[0]], &[], 23) });
    }
}

/// "Where a start or an offset pair's base is all ones in that size, both ends are, with tombstone flag 1 and no 25".
fn dead(rows: &mut Vec<Row>, size: u8, largest: u64) {
    let at = |value: u64| address(size, value);
    let (ones, gone) = (at(largest), (largest, largest, true));
    let mut add =
        |name: &'static str, lists: &[&[u8]], ranges: &[(u64, u64, bool)], fault: u8| rows.push(row(name, size, lists, ranges, fault));
    add("a dead start with an end", &[&[6], &ones, &at(0x1100), &[0]], &[gone], 0);
    add("a dead start with a length, no 25", &[&[7], &ones, &[0x10, 0]], &[gone], 0);
    add("a dead start by its index", &[&[2, 3, 0, 0]], &[gone], 0);
    add("a dead start by its index with a length", &[&[3, 3, 1, 0]], &[gone], 0);
    add("a dead base", &[&[5], &ones, &[4, 0x10, 0x20, 0]], &[gone], 0);
    add("a dead base by its index", &[&[1, 3, 4, 0x10, 0x20, 0]], &[gone], 0);
    add("a dead base and a pair of nothing", &[&[1, 3, 4, 0, 0, 0]], &[gone], 0);
    add("a base one less, and a start that is dead by its sum", &[&[5], &at(largest - 1), &[4, 1, 9, 0]], &[gone], 0);
    add("an end alone is ordinary", &[&[6], &at(largest - 8), &ones, &[0]], &[(largest - 8, largest, false)], 0);
    add("all ones less 1 is no dead start", &[&[6], &at(largest - 1), &at(largest - 1), &[0]], &[(largest - 1, largest - 1, false)], 0);
    add("a dead start whose end has no address", &[&[2, 3, 9, 0]], &[], 24);
    add("a dead start whose length is cut", &[&[7], &ones, &[0x80]], &[], 7);
    add("a dead start whose end is cut", &[&[6], &ones, &[0]], &[], 23);
    add("a dead range between others", &[&[4, 0, 8, 3, 3, 8, 4, 8, 0x10, 0]], &[(0x1000, 0x1008, false), gone, (0x1008, 0x1010, false)], 0);
    rows.push(Row { base: largest, ..row("the field's base is dead", size, &[&[4, 1, 2, 0]], &[gone], 0) });
}

/// 25: a start or an end above the largest address.
fn wide(rows: &mut Vec<Row>, size: u8, largest: u64) {
    let at = |value: u64| address(size, value);
    let near = at(largest - 8);
    let to_last = (largest - 8, largest, false);
    let mut add =
        |name: &'static str, lists: &[&[u8]], ranges: &[(u64, u64, bool)], fault: u8| rows.push(row(name, size, lists, ranges, fault));
    add("start_length to the largest address", &[&[7], &near, &[8, 0]], &[to_last], 0);
    add("start_length one past it", &[&[7], &near, &[9, 0]], &[], 25);
    add("start_length by the largest length", &[&[7], &near, &[0xff; 9], &[1, 0]], &[], 25);
    add("startx_length past it", &[&[3, 0], &[0xff; 9], &[1, 0]], &[], 25);
    add("a pair to the largest address", &[&[5], &near, &[4, 0, 8, 0]], &[to_last], 0);
    add("a pair whose end is one past it", &[&[5], &near, &[4, 0, 9, 0]], &[], 25);
    add("a pair whose start is one past it", &[&[5], &near, &[4, 9, 0, 0]], &[], 25);
    add("a pair whose start is the largest address, its end past it", &[&[5], &near, &[4, 8, 9, 0]], &[(largest, largest, true)], 0);
    add("25 behind a range", &[&[4, 0, 0x10, 7], &near, &[9, 0]], &[(0x1000, 0x1010, false)], 25);
    add("25 before a later 23", &[&[7], &near, &[9, 8]], &[], 25);
    if size == 4 {
        for base in [LAST4 + 1, LAST] {
            rows.push(Row { base, ..row("a wide base and a pair", size, &[&[4, 0, 0, 0]], &[], 25) });
            rows.push(Row { base, ..row("a wide base and no pair", size, &[&[2, 0, 1, 0]], &[(0x1000, 0x1010, false)], 0) });
            rows.push(Row {
                base,
                ..row("a wide base, another before the pair", size, &[&[1, 0, 4, 0, 8, 0]], &[(0x1000, 0x1008, false)], 0)
            });
        }
    }
}

#[cfg(test)]
mod tests {
    use crate::rnglists::{Cursor, RangeList, Sections};

    #[test]
    fn every_list_is_read_so() {
        for row in super::rows() {
            let sections = Sections { lists: &row.lists, addresses: &row.table };
            let mut cursor = Cursor::new(RangeList { offset: row.offset, base: row.base, addresses: row.place, size: row.size });
            let (mut ranges, mut fault) = (Vec::new(), 0);
            loop {
                match cursor.next(sections) {
                    Ok(Some((range, dead))) => ranges.push((range.begin, range.end, dead)),
                    Ok(None) => break,
                    Err(number) => {
                        fault = number;
                        break;
                    }
                }
            }
            assert_eq!((&ranges, fault), (&row.ranges, row.fault), "{} of {} bytes", row.name, row.size);
        }
    }
}
