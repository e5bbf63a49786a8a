//! All units in one import, through the wrapper: the listing program's own unit twice, with its line program twice.

use std::fs;
use std::path::PathBuf;

use pezgok::{Buffers, Finished, Inputs, Options, Refusal, import, import_dwarf, measure_dwarf, work_length};

/// Field tags and where a unit's offset stands behind its field's head.
const UNIT: u8 = 0x10;
const LINE_HEADER: u8 = 0x13;
const HEAD: usize = 3;

fn read(name: &str) -> Vec<u8> {
    let folder = PathBuf::from(env!("CARGO_MANIFEST_DIR")).join("../crates/listing/data");
    fs::read(folder.join(name)).expect("the listing program's unit is there")
}

/// The unit at an offset of the section, with a part of the program behind its line header.
fn unit(offset: u64, start: u64, length: u64) -> Vec<u8> {
    let (main, mut unit) = (read("unit.main"), Vec::new());
    let mut rest = &main[..];
    while let [tag, low, high, ..] = *rest {
        let (field, after) = rest.split_at(HEAD + usize::from(u16::from_le_bytes([low, high])));
        let at = unit.len();
        unit.extend(field);
        match tag {
            UNIT => unit[at + HEAD..at + HEAD + 8].copy_from_slice(&offset.to_le_bytes()),
            LINE_HEADER => unit.extend([[0x1e, 16, 0].as_slice(), &start.to_le_bytes(), &length.to_le_bytes()].concat()),
            _ => {}
        }
        rest = after;
    }
    unit
}

/// Both units, and their programs.
fn both(second: u64) -> (Vec<u8>, Vec<u8>) {
    let program = read("unit.line");
    let length = program.len() as u64;
    ([unit(0, 0, length), unit(1000, length, second)].concat(), program.repeat(2))
}

type Call = fn(Inputs<'_>, Options, Buffers<'_>) -> Result<Finished, Refusal>;

/// The answer of an import, and the buffers, which are filled before it.
fn called(call: Call, inputs: Inputs<'_>, options: Options, lengths: [usize; 3]) -> (Result<Finished, Refusal>, [Vec<u8>; 3]) {
    let mut work = vec![0xa5; work_length(inputs.main.len() / 3, inputs.program.len())];
    let [mut records, mut files, mut warnings] = lengths.map(|length| vec![0xa5; length]);
    let buffers = Buffers { work: &mut work, records: &mut records, files: &mut files, warnings: &mut warnings };
    let result = call(inputs, options, buffers);
    assert!(work.iter().all(|&byte| byte == 0));
    (result, [records, files, warnings])
}

#[test]
fn all_units_are_imported() {
    let (main, program) = both(3);
    let inputs = Inputs { main: &main, program: &program, ..Inputs::default() };
    // The ordinal names no unit, and is not read.
    let options = Options { ordinal: 7, ..Options::default() };
    let mut work = vec![0xa5; work_length(main.len() / 3, program.len())];
    let needed = measure_dwarf(inputs, options, &mut work).expect("it is measured");
    assert!(work.iter().all(|&byte| byte == 0));
    assert_eq!((needed.records, needed.files, needed.warnings), (270, 14, 0));
    assert_eq!((needed.functions, needed.line_rows, needed.inline_nodes, needed.rejected_ranges), (2, 4, 2, 0));
    let (done, [records, files, _]) = called(import_dwarf, inputs, options, [needed.records, needed.files, needed.warnings]);
    assert_eq!(done, Ok(needed));
    // The units have the same file, so their records are those of each alone.
    for ordinal in [0, 1] {
        let (alone, [own, own_files, _]) = called(import, inputs, Options { ordinal, ..options }, [135, 14, 0]);
        assert_eq!(alone.map(|done| done.records), Ok(135));
        assert_eq!(records[135 * ordinal as usize..][..135], own);
        assert_eq!(files, own_files);
    }
    // A byte past what is written stays, and one too few refuses.
    let (done, [records, files, warnings]) = called(import_dwarf, inputs, options, [271, 15, 1]);
    assert_eq!((done, records[270], files[14], warnings[0]), (Ok(needed), 0xa5, 0xa5, 0xa5));
    for (lengths, refusal) in [([269, 14, 0], 16), ([135, 14, 0], 16), ([270, 13, 0], 17)] {
        let (done, buffers) = called(import_dwarf, inputs, options, lengths);
        assert_eq!(done.map_err(Refusal::number), Err(refusal));
        assert!(buffers.iter().flatten().all(|&byte| byte == 0));
    }
}

#[test]
fn what_refuses_one_unit_refuses_all() {
    // The second unit's part passes the program, or is cut within an instruction.
    for (second, refusal, name) in [(4, 2, "misshapen"), (1, 7, "cut")] {
        let (main, program) = both(second);
        let inputs = Inputs { main: &main, program: &program, ..Inputs::default() };
        let (done, buffers) = called(import_dwarf, inputs, Options::default(), [4096; 3]);
        let refused = done.expect_err("it is refused");
        assert_eq!((refused.number(), refused.to_string().as_str()), (refusal, name));
        assert!(buffers.iter().flatten().all(|&byte| byte == 0));
        let mut work = vec![0xa5; work_length(main.len() / 3, program.len())];
        assert_eq!(measure_dwarf(inputs, Options::default(), &mut work), Err(refused));
    }
    // The first unit alone is sound where the second is cut.
    let (main, program) = both(1);
    let inputs = Inputs { main: &main, program: &program, ..Inputs::default() };
    assert!(called(import, inputs, Options::default(), [4096; 3]).0.is_ok());
}

#[test]
fn an_input_without_units_is_finished() {
    let inputs = Inputs { program: &[0], ..Inputs::default() };
    let options = Options { ordinal: 1, ..Options::default() };
    let (done, _) = called(import_dwarf, inputs, options, [0; 3]);
    assert_eq!(done, Ok(Finished::default()));
    let mut short = vec![0xa5; work_length(0, 1) - 1];
    assert_eq!(measure_dwarf(inputs, options, &mut short).map_err(Refusal::number), Err(5));
}
