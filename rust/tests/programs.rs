//! Rows from a line program, through the wrapper: the listing program's own unit with a line encoding in place of its rows.

use std::fs;
use std::path::PathBuf;

use pezgok::fields::{Fields, LINE_ENCODING, ROW as TRAY_ROW};
use pezgok::{
    Answer, Buffers, Builder, Finished, Inputs, Options, Refusal, Unit, import, import_dwarf, measure, work_length, work_length_encoded,
};

/// Tags of an input.
const LINE_HEADER: u8 = 0x13;
const ROW: u8 = 0x16;
/// Minimum instruction length, operations per instruction, default statement flag, line base -10, line range 242.
const GCC: [u8; 5] = [1, 1, 1, 0xf6, 242];
/// Set address 1000 hex, file 0, line 10, a row; 8 further, line 12, a row; 8 further, the end.
const PROGRAM: &[u8] = &[0, 9, 2, 0, 0x10, 0, 0, 0, 0, 0, 0, 4, 0, 3, 9, 1, 2, 8, 3, 2, 1, 2, 8, 0, 1, 1];

fn read(name: &str) -> Vec<u8> {
    let folder = PathBuf::from(env!("CARGO_MANIFEST_DIR")).join("../crates/listing/data");
    fs::read(folder.join(name)).expect("the listing program's unit is there")
}

fn put(input: &mut Vec<u8>, tag: u8, payload: &[u8]) {
    input.push(tag);
    input.extend((payload.len() as u16).to_le_bytes());
    input.extend(payload);
}

/// The unit with a line encoding, and with its rows or without.
fn encoded(encoding: &[u8], rows: bool) -> Vec<u8> {
    let mut input = Vec::new();
    for field in Fields::new(&read("unit.main")).filter(|field| rows || field.tag != ROW) {
        put(&mut input, field.tag, field.payload);
        if field.tag == LINE_HEADER {
            put(&mut input, LINE_ENCODING, encoding);
        }
    }
    input
}

fn fields(input: &[u8]) -> usize {
    Fields::new(input).count()
}

/// The answer, and the records.
fn call(main: &[u8], program: &[u8], work: usize, all: bool) -> (Result<Finished, Refusal>, Vec<u8>) {
    let (mut work, mut records, mut files, mut warnings) = (vec![0xa5; work], vec![0; 4096], vec![0; 4096], vec![0; 4096]);
    let buffers = Buffers { work: &mut work, records: &mut records, files: &mut files, warnings: &mut warnings };
    let import = if all { import_dwarf } else { import };
    let done = import(Inputs { main, program, ..Inputs::default() }, Options::default(), buffers);
    assert!(work.iter().all(|&byte| byte == 0));
    records.truncate(done.map_or(0, |done| done.records));
    (done, records)
}

#[test]
fn the_rows_are_those_of_the_fields() {
    let (given, with_rows) = (read("unit.main"), read("unit.line"));
    let main = encoded(&GCC, false);
    let work = work_length_encoded(fields(&main), PROGRAM.len());
    let expected = call(&given, &with_rows, work_length(fields(&given), with_rows.len()), false);
    assert_eq!(Fields::new(&expected.1).filter(|field| field.tag == TRAY_ROW).count(), 2);
    assert_eq!(call(&main, PROGRAM, work, false), expected);
    assert_eq!(call(&main, PROGRAM, work, true), expected);
}

#[test]
fn a_byte_of_program_takes_64_of_work() {
    let main = encoded(&GCC, false);
    let work = work_length_encoded(fields(&main), PROGRAM.len());
    assert_eq!(work - work_length(fields(&main), PROGRAM.len()), 60 * PROGRAM.len());
    for all in [false, true] {
        assert!(call(&main, PROGRAM, work, all).0.is_ok());
        assert_eq!(call(&main, PROGRAM, work - 1, all).0.map_err(Refusal::number), Err(5));
    }
}

#[test]
fn refusals_have_numbers_and_names() {
    let sound = encoded(&GCC, false);
    let refused = |main: &[u8], program: &[u8]| {
        let mut work = vec![0xa5; work_length_encoded(fields(main), program.len())];
        let inputs = Inputs { main, program, ..Inputs::default() };
        let measured = measure(inputs, Options::default(), &mut work).expect_err("it is refused");
        assert_eq!(call(main, program, work.len(), false).0, Err(measured));
        (measured, measured.to_string())
    };
    let encoding = (Refusal::LINE_ENCODING, "line encoding".to_owned());
    for values in [[1, 1, 1, 0xf6, 0], [1, 0, 1, 0xf6, 242], [1, 4, 0, 0xf6, 242]] {
        assert_eq!(refused(&encoded(&values, false), &[0]), encoding);
    }
    // 5 further, then set address 4; the same at 2^64 - 1 and one further.
    let address = (Refusal::LINE_ADDRESS, "line address".to_owned());
    assert_eq!(refused(&sound, &[2, 5, 0, 2, 2, 4]), address);
    assert_eq!(refused(&sound, &[0, 9, 2, 255, 255, 255, 255, 255, 255, 255, 255, 2, 1]), address);
    assert_eq!(refused(&sound, &[0]).0.number(), 7);
    assert_eq!(refused(&encoded(&GCC, true), PROGRAM).0.number(), 2);
    assert_eq!(refused(&encoded(&[1, 1, 2, 0xf6, 242], false), PROGRAM).0.number(), 2);
}

#[test]
fn a_builder_takes_the_work_that_is_needed() {
    let main = encoded(&GCC, false);
    let mut builder = Builder::new();
    builder.import(Unit::uncounted(Inputs { main: &main, program: PROGRAM, ..Inputs::default() }, 0)).expect("it is imported");
    let table = builder.finish().expect("the table is made");
    let Answer::Frames(frames) = table.look_up(0x1005) else { panic!("no frames at 1005") };
    let lines: Vec<Option<u32>> = frames.map(|frame| frame.location.map(|place| place.line)).collect();
    assert_eq!(lines, [Some(10), Some(11)]);
}
