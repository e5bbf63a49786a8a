//! Range lists through the wrapper: the listing program's own unit, whose ranges come from lists.

use std::fs;
use std::path::PathBuf;

use pezgok::fields::{Fields, RANGE_LIST};
use pezgok::{
    Answer, Buffers, Builder, Finished, Inputs, Options, Refusal, Unit, import, import_dwarf, list_fields, list_work_length, measure,
    measure_dwarf, work_length,
};

/// Tags of an input.
const ENTRY: u8 = 0x17;
const RANGE: u8 = 0x19;
/// Where the second list begins: the function's, 1000 to 1010 by an offset pair; the inlined call's, 1004 to 1008 by an index and a length.
const SECOND: usize = 4;
const LISTS: &[u8] = &[4, 0, 0x10, 0, 3, 1, 4, 0];
const BASE: u64 = 0x1000;
const ADDRESSES: &[u8] = &[0, 0x20, 0, 0, 4, 0x10, 0, 0];

fn read(name: &str) -> Vec<u8> {
    let folder = PathBuf::from(env!("CARGO_MANIFEST_DIR")).join("../crates/listing/data");
    fs::read(folder.join(name)).expect("the listing program's unit is there")
}

/// The unit with a field 1f in place of each range, of addresses of this size.
fn listed(size: u8) -> Vec<u8> {
    let (mut input, mut offset) = (Vec::new(), 0);
    for field in Fields::new(&read("unit.main")) {
        let mut list = Vec::new();
        let (tag, payload) = if field.tag == RANGE {
            for number in [offset as u64, BASE, 0] {
                list.extend(number.to_le_bytes());
            }
            list.push(size);
            offset = SECOND;
            (RANGE_LIST, &list[..])
        } else {
            (field.tag, field.payload)
        };
        input.push(tag);
        input.extend((payload.len() as u16).to_le_bytes());
        input.extend(payload);
    }
    input
}

fn work_for(inputs: Inputs<'_>) -> usize {
    let fields = Fields::new(inputs.main).count() + Fields::new(inputs.supplementary).count();
    work_length(fields, inputs.program.len()) + list_work_length(inputs.lists.len(), list_fields(inputs.main, 0))
}

/// The answer and the records; the pass must say the same.
fn call(inputs: Inputs<'_>, work: usize, all: bool) -> (Result<Finished, Refusal>, Vec<u8>) {
    let (mut work, mut records, mut files, mut warnings) = (vec![0xa5; work], vec![0; 4096], vec![0; 4096], vec![0; 4096]);
    let measured = if all { measure_dwarf } else { measure }(inputs, Options::default(), &mut work);
    let buffers = Buffers { work: &mut work, records: &mut records, files: &mut files, warnings: &mut warnings };
    let done = if all { import_dwarf } else { import }(inputs, Options::default(), buffers);
    assert_eq!(measured, done);
    assert!(work.iter().all(|&byte| byte == 0));
    records.truncate(done.map_or(0, |done| done.records));
    (done, records)
}

#[test]
fn the_ranges_are_those_of_the_fields() {
    let (given, program, main) = (read("unit.main"), read("unit.line"), listed(4));
    let fields = Inputs { main: &given, program: &program, ..Inputs::default() };
    let lists = Inputs { main: &main, program: &program, lists: LISTS, addresses: ADDRESSES, ..Inputs::default() };
    assert_eq!(
        Fields::new(&main).filter(|field| field.tag == ENTRY).count(),
        Fields::new(&given).filter(|field| field.tag == ENTRY).count()
    );
    let expected = call(fields, work_for(fields), false);
    assert_eq!(expected.0.map(|done| done.inline_nodes), Ok(1));
    for all in [false, true] {
        assert_eq!(call(lists, work_for(lists), all), expected);
    }
}

#[test]
fn a_byte_of_a_list_takes_eight_of_work_for_each_field() {
    let (main, program) = (listed(4), read("unit.line"));
    let inputs = Inputs { main: &main, program: &program, lists: LISTS, addresses: ADDRESSES, ..Inputs::default() };
    assert_eq!(list_fields(&main, 0), 2);
    assert_eq!(list_fields(&main, 1), 0);
    assert_eq!([0, 1, 256, 257].map(|fields| list_work_length(10, fields)), [0, 80, 20_480, 20_480]);
    let work = work_for(inputs);
    assert_eq!(work - work_length(Fields::new(&main).count(), program.len()), 8 * LISTS.len() * 2);
    for all in [false, true] {
        assert_eq!(call(inputs, work - 1, all).0.map_err(Refusal::number), Err(5));
    }
}

#[test]
fn refusals_have_numbers_and_names() {
    let (main, program) = (listed(4), read("unit.line"));
    // What the inlined call's list is, and what it is refused with.
    for (list, refusal, word) in [
        ([8, 0, 0, 0], Refusal::CUT_LIST, "cut list"),
        ([3, 2, 4, 0], Refusal::NO_ADDRESS, "no address"),
        ([4, 0xff, 0xff, 0x7f], Refusal::CUT_LIST, "cut list"),
    ] {
        let lists = [&LISTS[..SECOND], &list].concat();
        let inputs = Inputs { main: &main, program: &program, lists: &lists, addresses: ADDRESSES, ..Inputs::default() };
        let expected = if list[0] == 4 { 7 } else { refusal.number() };
        let given = call(inputs, work_for(inputs), false).0.expect_err("it is refused");
        assert_eq!(given.number(), expected);
        if expected == refusal.number() {
            assert_eq!(given.to_string(), word);
        }
    }
    let wide = [&LISTS[..SECOND], &[7, 0xfe, 0xff, 0xff, 0xff, 2, 0]].concat();
    let inputs = Inputs { main: &main, program: &program, lists: &wide, addresses: ADDRESSES, ..Inputs::default() };
    let given = call(inputs, work_for(inputs), false).0.expect_err("it is refused");
    assert_eq!((given, given.to_string()), (Refusal::WIDE_ADDRESS, "wide address".to_owned()));
    let main = listed(5);
    let inputs = Inputs { main: &main, ..inputs };
    assert_eq!(call(inputs, work_for(inputs), false).0.map_err(Refusal::number), Err(2));
}

#[test]
fn a_builder_takes_the_work_that_is_needed() {
    let (main, program) = (listed(4), read("unit.line"));
    let inputs = Inputs { main: &main, program: &program, lists: LISTS, addresses: ADDRESSES, ..Inputs::default() };
    let mut builder = Builder::new();
    builder.import(Unit::uncounted(inputs, 0)).expect("it is imported");
    let table = builder.finish().expect("the table is made");
    let Answer::Frames(frames) = table.look_up(0x1005) else { panic!("no frames at 1005") };
    assert_eq!(frames.map(|frame| frame.function.to_vec()).collect::<Vec<_>>(), [b"fade".to_vec(), b"dim".to_vec()]);
}
