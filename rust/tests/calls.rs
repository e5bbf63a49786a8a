//! The library, called through the wrapper on the listing program's own unit.

use std::fs;
use std::path::PathBuf;

use pezgok::{Buffers, Finished, Inputs, Options, Refusal, import, measure, work_length};

fn unit(name: &str) -> Vec<u8> {
    let folder = PathBuf::from(env!("CARGO_MANIFEST_DIR")).join("../crates/listing/data");
    fs::read(folder.join(name)).expect("the listing program's unit is there")
}

struct Lent {
    work: Vec<u8>,
    records: Vec<u8>,
    files: Vec<u8>,
    warnings: Vec<u8>,
}

impl Lent {
    fn new(work: usize, records: usize) -> Self {
        Self { work: vec![0xa5; work], records: vec![0xa5; records], files: vec![0xa5; 4096], warnings: vec![0xa5; 4096] }
    }

    fn call(&mut self, main: &[u8], program: &[u8]) -> Result<Finished, Refusal> {
        import(
            Inputs { main, program, ..Inputs::default() },
            Options::default(),
            Buffers { work: &mut self.work, records: &mut self.records, files: &mut self.files, warnings: &mut self.warnings },
        )
    }
}

#[test]
fn a_unit_is_imported() {
    let (main, program) = (unit("unit.main"), unit("unit.line"));
    let mut lent = Lent::new(work_length(main.len() / 3, program.len()), 4096);
    let done = lent.call(&main, &program).expect("it is finished");
    assert_eq!((done.functions, done.line_rows, done.inline_nodes, done.rejected_ranges), (1, 2, 1, 0));
    assert_eq!((done.records, done.files, done.warnings), (135, 14, 0));
    // The first row: address 1000 hex, file 1, line 10, column 0.
    assert_eq!(&lent.records[22..43], b"\x42\x12\x00\x00\x10\x00\x00\x00\x00\x00\x00\x01\x00\x00\x00\x0a\x00\x00\x00\x00\x00");
    assert_eq!(&lent.files[..14], b"\x40\x0b\x00\x04\x00/srccue.c");
    assert!(lent.files[14..].iter().chain(&lent.records[done.records..]).all(|&byte| byte == 0xa5));
    assert!(lent.work.iter().all(|&byte| byte == 0));
}

#[test]
fn refusals_have_numbers_and_names() {
    let (main, program) = (unit("unit.main"), unit("unit.line"));
    for (work, records, number, name) in [(0, 4096, 5, "short work"), (57_344, 8, 16, "short tray")] {
        let mut lent = Lent::new(work, records);
        let refusal = lent.call(&main, &program).expect_err("it is refused");
        assert_eq!((refusal.number(), refusal.to_string().as_str()), (number, name));
        assert!([&lent.work, &lent.records, &lent.files, &lent.warnings].into_iter().flatten().all(|&byte| byte == 0));
    }
    let refusal = Lent::new(57_344, 4096).call(&[0x10, 0, 0], &[]).expect_err("it is refused");
    assert_eq!(refusal.to_string(), "misshapen");
}

#[test]
fn the_lengths_that_are_measured_are_enough_and_no_less_is() {
    let (main, program) = (unit("unit.main"), unit("unit.line"));
    let inputs = Inputs { main: &main, program: &program, ..Inputs::default() };
    let mut work = vec![0xa5; work_length(main.len() / 3, program.len())];
    let needed = measure(inputs, Options::default(), &mut work).expect("it is measured");
    assert_eq!((needed.records, needed.files, needed.warnings), (135, 14, 0));
    assert!(work.iter().all(|&byte| byte == 0));
    let call = |records: usize, files: usize, work: &mut Vec<u8>| {
        work.fill(0xa5);
        let (mut records, mut files) = (vec![0xa5; records], vec![0xa5; files]);
        import(inputs, Options::default(), Buffers { work, records: &mut records, files: &mut files, warnings: &mut [] })
    };
    assert_eq!(call(needed.records, needed.files, &mut work), Ok(needed));
    assert_eq!(call(needed.records - 1, needed.files, &mut work).map_err(Refusal::number), Err(16));
    assert_eq!(call(needed.records, needed.files - 1, &mut work).map_err(Refusal::number), Err(17));
    work.fill(0xa5);
    let refusal = measure(Inputs { main: &[0x10, 0, 0], ..inputs }, Options::default(), &mut work).expect_err("it is refused");
    assert_eq!((refusal.number(), refusal.to_string().as_str()), (2, "misshapen"));
    assert!(work.iter().all(|&byte| byte == 0));
}

#[test]
fn a_package_without_debug_data_is_finished() {
    let inputs = Inputs { program: &[0], ..Inputs::default() };
    let call = |ordinal: u64, work: usize| {
        let (mut work, mut records) = (vec![0xa5; work], vec![0xa5; 8]);
        let options = Options { ordinal, ..Options::default() };
        let result = import(inputs, options, Buffers { work: &mut work, records: &mut records, files: &mut [], warnings: &mut [] });
        assert!(work.iter().all(|&byte| byte == 0));
        assert!(records.iter().all(|&byte| byte == if result.is_ok() { 0xa5 } else { 0 }));
        assert_eq!(measure(inputs, options, &mut work), result);
        result.map_err(Refusal::number)
    };
    assert_eq!(call(0, work_length(0, 1)), Ok(Finished::default()));
    assert_eq!(call(0, work_length(0, 1) - 1), Err(5));
    assert_eq!([call(1, work_length(0, 1)), call(u64::MAX, 0)], [Err(4); 2]);
}
