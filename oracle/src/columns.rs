//! Request E7: columns in the rows, by hand, and on thousands of tables by a loop that was written from documents 01 and 02.

use crate::case::Case;
use crate::compose::*;
use crate::grammar::field;
use crate::judge::judge;
use crate::listing::listing;
use crate::random::Random;
use crate::{answer, document};

const TABLES: u64 = 20_000;
/// Where the program begins: its first sequence too, and each sequence has three bytes.
const PROGRAM: u64 = 44;

/// Of one of three files.
#[derive(Clone, Copy, Debug, PartialEq)]
struct Row {
    address: u64,
    file: u64,
    line: u64,
    column: u16,
}

/// Rows, at least one, and the address that ends them.
struct Sequence {
    rows: Vec<Row>,
    end: u64,
}

impl Sequence {
    fn covers(&self, address: u64) -> bool {
        self.rows[0].address <= address && address < self.end
    }
}

struct Table {
    sequences: Vec<Sequence>,
    /// How many sequences the program ends: the offsets of others are not known.
    known: usize,
    start: u64,
    end: u64,
    requested: Option<u64>,
}

impl Table {
    /// One unit with one function.
    fn case(&self) -> Case {
        let mut main = Fields::default();
        main.unit(0, 100, 5, 4).text(0x1000, 0x2000).header(0, 32, 5, 4, 13, &OPCODE_LENGTHS);
        main.file(0, 0, b"a.c").file(0, 0, b"b.c").file(0, 0, b"c.c");
        for sequence in &self.sequences {
            sequence.rows.iter().for_each(|row| _ = main.row(row.address, row.file, row.line, row.column, PLAIN));
            main.row(sequence.end, 0, 0, 7, END);
        }
        main.entry(11, 0, COMPILE_UNIT).entry(20, 1, SUBPROGRAM).string(NAME, b"dim");
        if let Some(offset) = self.requested {
            main.attribute(STATEMENT_SEQUENCE, SECTION_OFFSET, offset);
        }
        main.range(self.start, self.end, 0);
        Case::new(main.0, Vec::new(), [0, 1, 1].repeat(self.known))
    }

    fn offset(&self, sequence: usize) -> Option<u64> {
        (sequence < self.known).then_some(PROGRAM + 3 * sequence as u64)
    }

    /// What the function's rows must be, and whether the first was moved.
    fn expected(&self) -> (Vec<Row>, bool) {
        // "Rows sort stably by address, then exact neighbours drop": the first one is kept.
        let mut all: Vec<(Row, Option<u64>)> = Vec::new();
        for (number, sequence) in self.sequences.iter().enumerate() {
            for &row in &sequence.rows {
                let place = all.iter().take_while(|(other, _)| other.address <= row.address).count();
                all.insert(place, (row, self.offset(number)));
            }
        }
        let line = |row: &Row| (row.file, row.line);
        let mut sorted: Vec<(Row, Option<u64>)> = Vec::new();
        for (row, offset) in all {
            let exact = |(last, other): &(Row, Option<u64>)| (last.address, line(last), *other) == (row.address, line(&row), offset);
            if !sorted.last().is_some_and(exact) {
                sorted.push((row, offset));
            }
        }
        // "A statement sequence that does not exist selects all rows".
        let exists = |offset: &u64| (0..self.sequences.len()).any(|number| self.offset(number) == Some(*offset));
        let asked = self.requested.filter(exists);
        let fits = |offset: Option<u64>| asked.is_none() || asked == offset;
        let inside = |row: &Row| self.start <= row.address && row.address < self.end;
        let mut rows: Vec<Row> = sorted.iter().filter(|(row, offset)| inside(row) && fits(*offset)).map(|(row, _)| *row).collect();
        // "If it has none, or its first is above its start, and a sequence covers the start, the last earlier row of that sequence (of
        // any, if neither it nor the request has an offset) is put first, moved to the start", and "brings its column".
        let mut moved = None;
        let covering = (0..self.sequences.len()).find(|&number| fits(self.offset(number)) && self.sequences[number].covers(self.start));
        if let (Some(number), false) = (covering, rows.first().is_some_and(|row| row.address == self.start)) {
            let of = asked.or(self.offset(number));
            let earlier = sorted.iter().filter(|(row, offset)| row.address < self.start && (of.is_none() || of == *offset));
            moved = earlier.last().map(|(row, _)| Row { address: self.start, ..*row });
        }
        rows.splice(..0, moved);
        // "rows repeating their neighbour's file and line drop", "whatever their columns, the first one kept".
        let mut kept: Vec<Row> = Vec::new();
        for row in rows {
            if kept.last().is_none_or(|last| line(last) != line(&row)) {
                kept.push(row);
            }
        }
        (kept, moved.is_some())
    }
}

/// The rows of the records, their files as the table has them.
fn answered(case: &Case) -> Vec<Row> {
    let answer = answer(case);
    assert_eq!(answer.refusal, 0);
    let (mut rows, mut rest) = (Vec::new(), &answer.records[..]);
    while let Some((tag, payload, after)) = field(rest) {
        if tag == 0x42 {
            assert_eq!(payload.len(), 18);
            let number = |from: usize, to: usize| payload[from..to].iter().rev().fold(0, |value, &byte| value << 8 | u64::from(byte));
            rows.push(Row { address: number(0, 8), file: number(8, 12) - 1, line: number(12, 16), column: number(16, 18) as u16 });
        }
        rest = after;
    }
    rows
}

/// Few addresses, files, lines and columns, so that rows are neighbours of all kinds.
fn table(random: &mut Random) -> Table {
    let sequences: Vec<Sequence> = (0..random.between(1, 3))
        .map(|_| {
            let mut address = 0x1000 + 4 * random.below(6);
            let rows: Vec<Row> = (0..random.between(1, 7))
                .map(|_| {
                    let row =
                        Row { address, file: random.below(2), line: random.between(10, 11), column: random.pick(&[0, 1, 9, u16::MAX]) };
                    address = if random.chance(10) { address - 4 } else { address + random.pick(&[0, 0, 0, 4, 8]) };
                    row
                })
                .collect();
            let end = rows.iter().map(|row| row.address).max().unwrap_or(0) + random.pick(&[4, 0x10]);
            Sequence { rows, end }
        })
        .collect();
    let known = random.pick(&[sequences.len(), sequences.len(), 0]);
    let start = 0x1000 + random.pick(&[0, 4, 6, 8, 12, 16, 20]);
    let end = start + random.pick(&[2, 4, 8, 0x40]);
    let requested = random.pick(&[None, None, Some(PROGRAM), Some(PROGRAM + 3), Some(45)]);
    Table { sequences, known, start, end, requested }
}

#[test]
fn rows_by_a_loop() {
    let (mut moved, mut other) = (0, 0);
    for number in 0..TABLES {
        let table = table(&mut Random::new(7, number));
        let (case, (rows, first)) = (table.case(), table.expected());
        assert_eq!(answered(&case), rows, "table {number}");
        assert_eq!(judge(&case, &answer(&case)), Ok(true), "table {number}");
        moved += u64::from(first && rows[0].column != 0);
        // One line at two places, told apart by the column alone.
        let again =
            |place: usize, row: &Row| rows[..place].iter().any(|r| (r.file, r.line) == (row.file, row.line) && r.column != row.column);
        other += u64::from(rows.iter().enumerate().any(|(place, row)| again(place, row)));
    }
    assert!(moved > TABLES / 20 && other > TABLES / 20, "{moved} {other}");
}

/// Rows of one file as address, line and column, one sequence from 1000 to 1010 hex; the function's start; its rows.
#[test]
fn rows_by_hand() {
    for (rows, start, expected) in [
        // Two calls on one line, another line between.
        ([(0x1000, 10, 3), (0x1002, 11, 1), (0x1004, 10, 9)].as_slice(), 0x1000, "1000 10 3, 1002 11 1, 1004 10 9"),
        // Neighbours with equal file and line merge, the first one kept.
        (&[(0x1000, 10, 3), (0x1004, 10, 9)], 0x1000, "1000 10 3"),
        (&[(0x1000, 10, 9), (0x1004, 10, 3), (0x1006, 11, 0)], 0x1000, "1000 10 9, 1006 11 0"),
        // A moved row brings its column.
        (&[(0x1000, 10, 3), (0x1008, 11, 4)], 0x1004, "1004 10 3, 1008 11 4"),
        (&[(0x1000, 10, 3), (0x1002, 10, 9)], 0x1004, "1004 10 9"),
        (&[(0x1000, 10, 3), (0x1008, 10, 9)], 0x1004, "1004 10 3"),
        // Of exact neighbours the first is left, and its column is the one that is moved.
        (&[(0x1000, 10, 3), (0x1000, 10, 9)], 0x1004, "1004 10 3"),
        (&[(0x1000, 10, 9), (0x1000, 10, 3), (0x1000, 10, 0)], 0x1004, "1004 10 9"),
        // No column decides an order.
        (&[(0x1000, 11, 9), (0x1000, 10, 3)], 0x1000, "1000 11 9, 1000 10 3"),
        (&[(0x1000, 10, 0), (0x1008, 11, 65_535)], 0x1000, "1000 10 0, 1008 11 65535"),
    ] {
        let rows: Vec<Row> = rows.iter().map(|&(address, line, column)| Row { address, file: 0, line, column }).collect();
        let table = Table { sequences: vec![Sequence { rows, end: 0x1010 }], known: 1, start, end: 0x1010, requested: None };
        let told =
            |rows: &[Row]| rows.iter().map(|row| format!("{:x} {} {}", row.address, row.line, row.column)).collect::<Vec<_>>().join(", ");
        assert_eq!(told(&answered(&table.case())), expected);
        assert_eq!(told(&table.expected().0), expected);
    }
}

/// "a declaration row has 0", whatever column its entry has.
#[test]
fn declaration_rows() {
    let mut main = Fields::default();
    main.unit(0, 100, 5, 4).text(0x1000, 0x2000).header(0, 32, 5, 4, 13, &OPCODE_LENGTHS).file(0, 0, b"a.c");
    main.entry(11, 0, COMPILE_UNIT).entry(20, 1, SUBPROGRAM).string(NAME, b"dim");
    main.attribute(DECL_FILE, UNSIGNED, 0).attribute(DECL_LINE, UNSIGNED, 10).attribute(DECL_COLUMN, UNSIGNED, 9);
    main.range(0x1000, 0x1010, 0);
    let case = Case::new(main.0, Vec::new(), Vec::new());
    let printed = String::from_utf8(listing(&answer(&case), 1)).unwrap();
    assert_eq!(printed, "function 1000 1010 dim\nrow 1000 1 10 0\nfile 1  a.c\nstats 1 1 0 0\n");
}

/// A tray that would do for the plain Rust's shorter records is refused with 16, and the plain Rust is the judge all the same.
#[test]
fn short_trays() {
    let (_, case, _) = document::cases().remove(0);
    for (records, refusal, plain) in [(135, 0, 0), (134, 16, 0), (131, 16, 0), (130, 16, 16)] {
        let case = Case { records, ..case.clone() };
        let answer = answer(&case);
        assert_eq!((answer.refusal, plain::answer(&case).refusal), (refusal, plain), "{records}");
        assert_eq!(judge(&case, &answer), Ok(true), "{records}");
    }
    // Another tray that is short too.
    let case = Case { records: 134, files: 0, ..case };
    assert_eq!(answer(&case).refusal, 16);
    assert_eq!(judge(&case, &answer(&case)), Ok(true));
    let case = Case { records: 135, ..case };
    assert_eq!(answer(&case).refusal, 17);
    assert_eq!(judge(&case, &answer(&case)), Ok(true));
}
