//! The row machine: by hand, every operand's tenth byte, every special opcode, and where instructions and sequences end, by the Rust's own scan.

use crate::calls::lines;
use crate::compose::{Fields, OPCODE_LENGTHS};
use crate::machine_cases::{Call, by_hand, calls};
use crate::stand_in::gimli::{LineRow, RowKind};
use crate::{Case, answer_in, call_answers, generate, inputs, judged, program_cases, whole_cases, work_of};

const UNIT: u8 = 0x10;
const ENCODING: u8 = 0x1d;
const ENTRY: u8 = 0x17;

#[test]
fn answers_by_hand() {
    for (call, expected) in by_hand() {
        assert_eq!(call.answer(), expected, "{:x?}", call.bytes());
    }
}

/// Rows and every refusal are among the calls that are recorded.
#[test]
fn every_answer_is_reached() {
    let answers: Vec<String> = calls(1).take(400).map(|call| call.answer()).collect();
    for number in [7, 8, 9, 10, 11, 12, 21, 22] {
        assert!(answers.iter().filter(|answer| **answer == format!("refused {number}")).count() > 1, "few calls are refused with {number}");
    }
    let rows = |answer: &&String| answer.split(' ').count() > 6;
    assert!(answers.iter().filter(rows).count() > 100, "few calls have rows");
}

/// "Opcode 3 is always read signed, by E2's rule", whatever the header declares; the others unsigned.
#[test]
fn tenth_bytes() {
    for (fill, tenth) in [0x80, 0xff].into_iter().flat_map(|fill| (0..=255).map(move |tenth| (fill, tenth))) {
        for (opcode, declared) in [2, 3, 4, 5, 12].into_iter().flat_map(|opcode| (0..=2).map(move |declared| (opcode, declared))) {
            let mut lengths = OPCODE_LENGTHS.to_vec();
            lengths[usize::from(opcode) - 1] = declared;
            let program = [[opcode].as_slice(), &[fill; 9], &[tenth, 1]].concat();
            let call = Call { encoding: [1, 1, 1, 0xf6, 242], base: 13, lengths, program };
            let allowed = if opcode == 3 { [0, 0x7f] } else { [0, 1] };
            let number = match (allowed.contains(&(tenth & 0x7f)), tenth & 0x80 != 0) {
                (false, _) => Some(10),
                (true, true) => Some(11),
                (true, false) => None,
            };
            let (rows, fault) = call.run();
            assert_eq!(fault, number, "opcode {opcode}, {fill:x} {tenth:x}");
            let Some(row) = rows.first() else { continue };
            let low = if fill == 0xff { (1_u128 << 63) - 1 } else { 0 };
            let value = low | u128::from(tenth & 1) << 63;
            let line = if opcode == 3 { (1 + value) as u64 } else { 1 };
            let expected = match opcode {
                2 => (value as u64, 1, line, 0),
                4 => (0, value as u64, line, 0),
                5 => (0, 1, line, value.min(65_535) as u16),
                _ => (0, 1, line, 0),
            };
            assert_eq!((row.address, row.file, row.line, row.column), expected, "opcode {opcode}, {fill:x} {tenth:x}");
        }
    }
}

/// 6.2.5.1: "line increment = line_base + (adjusted opcode % line_range)", "operation advance = adjusted opcode / line_range".
#[test]
fn special_opcodes() {
    for (base, opcode) in
        [0, 1, 2, 9, 10, 13, 15, 200, 255].into_iter().flat_map(|base: u8| (base.max(1)..=255).map(move |opcode| (base, opcode)))
    {
        for [length, line_base, range] in [[1, 0xf6, 242], [4, 0xfb, 14], [0, 0x80, 255], [255, 0x7f, 1], [1, 0, 3]] {
            let call = Call { encoding: [length, 1, 0, line_base, range], base, lengths: Vec::new(), program: vec![opcode] };
            let (rows, fault) = call.run();
            let adjusted = i64::from(opcode) - i64::from(base);
            let line = 1 + i64::from(line_base as i8) + adjusted % i64::from(range);
            let row = &rows[0];
            assert_eq!((fault, row.kind, row.address as i64), (None, RowKind::Plain, i64::from(length) * (adjusted / i64::from(range))));
            assert_eq!((row.line, row.file, row.column), (line as u64, 1, 0));
        }
    }
}

/// Where the header declares the Standard's operand counts, the Rust's scan passes the same instructions: the same fault, and as many sequences, which
/// begin where the machine begins anew.
#[test]
fn the_scan_goes_the_same_way() {
    const OFFSET: u64 = 44;
    let (mut sound, mut faulty) = (0, 0);
    for mut call in calls(2).take(20_000) {
        let known = call.lengths.len().min(12);
        call.lengths[..known].copy_from_slice(&OPCODE_LENGTHS[..known]);
        call.lengths.extend(&OPCODE_LENGTHS[known..]);
        let (mut starts, mut start) = (Vec::new(), 0);
        let bytes = &call.program;
        let (_, fault) = call.program().run(|met| {
            let length = bytes[met.at + 1..].iter().take_while(|byte| **byte & 0x80 != 0).count();
            if met.fault == 0 && bytes[met.at] == 0 && bytes[met.at + 2 + length] == 1 {
                starts.push(start);
                start = met.end;
            }
        });
        let expected = match fault {
            // The scan knows no addresses.
            Some(21 | 22) => continue,
            Some(number) => format!("refused {number}"),
            None => starts.iter().fold("sequences".to_owned(), |text, start| format!("{text} {:x}", OFFSET + *start as u64)),
        };
        *if fault.is_some() { &mut faulty } else { &mut sound } += 1;
        let scan = lines::Call::Program { base: call.base, lengths: call.lengths.clone(), offset: OFFSET, program: call.program.clone() };
        assert_eq!(call_answers::lines(&scan), expected, "base {}, {:x?}", call.base, call.program);
    }
    assert!(sound > 10_000 && faulty > 1_000, "{sound} {faulty}");
}

/// What generated cases without field 1d are judged by is the plain Rust, as before: it answers each of them, and no row machine has a part in it.
#[test]
fn without_an_encoding_nothing_is_run() {
    for case in (0..400).map(|number| generate::case(3, number)).chain(whole_cases::cases(3).take(200)) {
        let encoded = |input: &[u8]| generate::split(input).iter().any(|field| field.0 == ENCODING);
        assert!(!encoded(&case.main) && !encoded(&case.supplementary));
        judged(&case).expect("the plain Rust answers alike");
        if let Ok((dwarf, _)) = inputs(&case) {
            assert!(dwarf.units.iter().all(|unit| unit.encoded().is_none() && std::ptr::eq(unit.rows(), &*unit.given)));
        }
    }
}

/// A case with the machine's rows as row fields in the place of each field 1d; none where a program is refused.
fn as_fields(case: &Case) -> Option<Case> {
    let (dwarf, _) = inputs(case).ok()?;
    let (mut main, mut units, mut rows) = (Vec::new(), dwarf.units.iter(), [].as_slice());
    for (tag, payload) in generate::split(&case.main) {
        if matches!(tag, UNIT | ENTRY) {
            main.extend(generate::split(&fields(rows)?));
            rows = &[];
        }
        match tag {
            UNIT => rows = units.next().filter(|unit| unit.encoded().is_some()).map_or(&[], |unit| unit.rows()),
            ENCODING => continue,
            _ => {}
        }
        main.push((tag, payload));
    }
    main.extend(generate::split(&fields(rows)?));
    let case = Case { main: generate::joined(&main), ..case.clone() };
    Some(Case { work: work_of(&case), ..case })
}

fn fields(rows: &[LineRow]) -> Option<Vec<u8>> {
    let mut fields = Fields::default();
    for row in rows {
        let kind = match row.kind {
            RowKind::Plain => 0,
            RowKind::End => 1,
            _ => return None,
        };
        fields.row(row.address, row.file, row.line, row.column, kind);
    }
    Some(fields.0)
}

/// But for where its rows come from, a unit with field 1d is imported as one with these rows as fields, of which the plain Rust is the judge.
#[test]
fn rows_as_fields_are_answered_alike() {
    let (mut finished, mut refused) = (0, 0);
    for case in program_cases::cases(4).take(2_000) {
        let case = Case { work: work_of(&case), ..case };
        let Some(other) = as_fields(&case).filter(|other| other.main != case.main) else { continue };
        let answer = answer_in(&case, [u32::MAX; 3]);
        assert_eq!(answer, answer_in(&other, [u32::MAX; 3]), "{case:x?}");
        judged(&other).expect("the plain Rust answers alike");
        *if answer.refusal == 0 { &mut finished } else { &mut refused } += 1;
    }
    assert!(finished > 500 && refused > 50, "{finished} {refused}");
}
