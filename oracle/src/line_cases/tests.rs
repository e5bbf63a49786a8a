//! Every answer of the layer is reached, and document 01's are given.

use std::collections::BTreeSet;

use super::*;
use crate::answer::inputs;
use crate::call_answers::lines;
use crate::stand_in::gimli::{LineRow, RowKind};

#[test]
fn document_01_answers() {
    for (call, expected) in document() {
        assert_eq!(lines(&call), expected, "{:x?}", call.bytes());
    }
}

/// Every answer that a kind can give, by its words without the values.
#[test]
fn every_answer_is_reached() {
    let reached: BTreeSet<(u8, String)> = calls(1).take(2000).map(|call| (call.bytes()[0], shape(&lines(&call)))).collect();
    for (kind, shapes) in [
        (1, ["operand", "refused 7", "refused 10", "refused 11"].as_slice()),
        (2, &["refused 7", "refused 8", "refused 9", "refused 10", "refused 11", "refused 12", "sequences", "sequences 1", "sequences 2"]),
        (
            3,
            &[
                "path no no 0",
                "path no a 0",
                "path no a 1",
                "path / no 1",
                "path / a 1",
                "path a no 0",
                "path a no 1",
                "path a a 0",
                "path a a 1",
            ],
        ),
        (4, &["joined"]),
    ] {
        for shape in shapes {
            assert!(reached.contains(&(kind, (*shape).to_owned())), "no call of kind {kind} answers {shape}");
        }
    }
}

/// Answers that the plain Rust does not give, for operands of opcode 3 that E2 is about.
#[test]
fn every_answer_of_e2_is_reached() {
    let calls: Vec<Call> = calls(1).take(2000).collect();
    let otherwise = calls.iter().filter(|call| lines(call) != plain::call_answers::lines(call));
    let reached: BTreeSet<String> = otherwise.filter(|call| call.bytes()[0] == 2).map(|call| shape(&lines(call))).collect();
    for answer in ["sequences", "sequences 1", "sequences 2", "refused 10", "refused 11"] {
        assert!(reached.contains(answer), "no call answers {answer} where the plain Rust answers otherwise");
    }
}

/// Splits that the plain Rust does not make, with the directory's last byte.
#[test]
fn every_answer_of_e3_is_reached() {
    let paths = calls(1).take(2000).filter(|call| call.bytes()[0] == 3 && lines(call) != plain::call_answers::lines(call));
    let answers: Vec<String> = paths.map(|call| lines(&call)).collect();
    for part in ["path C:\\5c|", "path c:/|", "path \\5c\\5c|", "path C:\\5crig|dim.c|1", "||1", "|q.c|0"] {
        assert!(answers.iter().any(|answer| answer.contains(part)), "no path is split as {part} where the plain Rust splits otherwise");
    }
}

#[test]
fn every_answer_for_rows_is_reached() {
    let answers: Vec<String> = rows_calls(1).take(300).map(|call| lines(&call)).collect();
    for number in [2, 6, 7, 8, 9, 11, 12] {
        assert!(answers.contains(&format!("refused {number}")), "no call for rows is refused with {number}");
    }
    // Mismatched sequences, a missing file, a line past 32 bits; a sequence that does not exist, rows and no rows.
    for part in ["F\\11\\00\\05", "F\\11\\00\\06", "F\\11\\00\\07", "\nrows 1 ", "\nrows 0 ", "\nrows 0\n"] {
        assert!(answers.iter().any(|answer| answer.contains(part)), "no call for rows answers {part:?}");
    }
}

/// Rows that are told apart by their columns alone: one line twice; a row moved to a start, and the first of exact neighbours moved.
#[test]
fn every_answer_of_e7_is_reached() {
    let (mut largest, mut twice, mut moved, mut first) = (0, 0, 0, 0);
    for call in rows_calls(1).take(300) {
        let Call::Rows { case, queries } = &call else { unreachable!("calls for rows") };
        let (Ok((dwarf, _)), answer) = (inputs(case), lines(&call)) else { continue };
        let sheet = dwarf.units[0].rows();
        for (query, line) in queries.iter().zip(answer.lines().skip(1)) {
            let rows: Vec<Vec<&str>> = line.split(' ').skip(2).map(|row| row.split(':').collect()).collect();
            assert!(rows.iter().all(|row| row.len() == 4), "{line}");
            largest += usize::from(rows.iter().any(|row| row[3] == "65535"));
            let other = |a: &[&str], b: &[&str]| a[1..3] == b[1..3] && a[3] != b[3];
            twice += usize::from(rows.iter().any(|a| rows.iter().any(|b| other(a, b))));
            let Some(row) = rows.first().filter(|row| row[3] != "0") else { continue };
            if sheet.iter().any(|own| own.address == query.start) || row[0] != format!("{:x}", query.start) {
                continue;
            }
            moved += 1;
            let told = |row: &LineRow| (row.kind == RowKind::Plain, row.address, row.file, row.line);
            let column = |of: &LineRow| of.column.to_string() == row[3] && of.line.to_string() == row[2];
            first += usize::from(sheet.windows(2).any(|pair| told(&pair[0]) == told(&pair[1]) && column(&pair[0]) && !column(&pair[1])));
        }
    }
    assert!(largest > 20 && twice > 20 && moved > 10 && first > 0, "{largest} {twice} {moved} {first}");
}

fn shape(answer: &str) -> String {
    let words: Vec<&str> = answer.split(' ').collect();
    match words[..] {
        ["path", parts] => parts.split('|').fold("path".to_owned(), |text, part| {
            let part = match part {
                "" => "no",
                "/" | "0" | "1" => part,
                _ => "a",
            };
            format!("{text} {part}")
        }),
        ["sequences", _] => "sequences 1".to_owned(),
        ["sequences", _, ..] => "sequences 2".to_owned(),
        ["operand" | "joined", ..] => words[0].to_owned(),
        _ => answer.to_owned(),
    }
}
