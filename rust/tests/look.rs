//! The look-ups, called through the wrapper on document 01's own unit and on bytes that are no records.

use std::fs;
use std::path::PathBuf;

use pezgok::look::{EXTENT_SIZE, Index, functions_crossing, functions_inside, look_up, nearest_below};
use pezgok::{Buffers, Inputs, Options, Refusal, import, work_length};

/// Document 01's function from 1000 to 1010 hex: rows at 1000 and 1008, an inlined call from 1004 to 1008.
fn records() -> Vec<u8> {
    let folder = PathBuf::from(env!("CARGO_MANIFEST_DIR")).join("../crates/listing/data");
    let [main, program] = ["unit.main", "unit.line"].map(|name| fs::read(folder.join(name)).expect("the listing program's unit is there"));
    let (mut work, mut records) = (vec![0; work_length(main.len() / 3, program.len())], vec![0; 4096]);
    let (mut files, mut warnings) = (vec![0; 4096], vec![0; 4096]);
    let done = import(
        Inputs { main: &main, program: &program, ..Inputs::default() },
        Options::default(),
        Buffers { work: &mut work, records: &mut records, files: &mut files, warnings: &mut warnings },
    )
    .expect("it is finished");
    records.truncate(done.records);
    records
}

/// The places of the fields of a tag.
fn places(records: &[u8], tag: u8) -> Vec<usize> {
    let (mut places, mut place) = (Vec::new(), 0);
    while place < records.len() {
        if records[place] == tag {
            places.push(place);
        }
        place += 3 + usize::from(u16::from_le_bytes([records[place + 1], records[place + 2]]));
    }
    places
}

#[test]
fn frames_are_found() {
    let records = records();
    let (rows, nodes) = (places(&records, 0x42), places(&records, 0x43));
    for (address, row, chain) in [(0x1000, rows[0], &nodes[..1]), (0x1005, rows[0], &nodes[..]), (0x1008, rows[1], &nodes[..1])] {
        let frames = look_up(&records, address).expect("it is held");
        assert_eq!((frames.function, frames.row, frames.chain()), (0, Some(row), chain));
        assert!(frames.places()[chain.len()..].iter().all(|&place| place == 0));
    }
    for address in [0, 0xfff, 0x1010, u64::MAX] {
        assert_eq!(look_up(&records, address).map_err(Refusal::number), Err(20));
    }
}

#[test]
fn functions_are_found() {
    let records = records();
    let field = &records[..22];
    assert_eq!(nearest_below(&records, 0x1010), Ok(0));
    assert_eq!(nearest_below(&records, 0x100f).map_err(Refusal::number), Err(20));
    let mut list = vec![0xa5; 30];
    assert_eq!(functions_inside(&records, 0x1000..0x1010, &mut list), Ok(22));
    assert_eq!((&list[..22], &list[22..]), (field, &[0xa5; 8][..]));
    assert_eq!(functions_crossing(&records, 0x1000..0x1010, &mut list).map_err(Refusal::number), Err(20));
    assert_eq!(list, [0; 30]);
    assert_eq!(functions_crossing(&records, 0x1001..0x1010, &mut list), Ok(22));
    let mut short = vec![0xa5; 21];
    let refusal = functions_inside(&records, 0..u64::MAX, &mut short).expect_err("it is refused");
    assert_eq!((refusal.number(), refusal.to_string().as_str()), (16, "short tray"));
    assert_eq!(short, [0; 21]);
}

#[test]
fn what_is_no_tray_is_refused() {
    let refusal = look_up(b"no records", 0).expect_err("it is refused");
    assert_eq!((refusal.number(), refusal.to_string().as_str()), (19, "misshapen records"));
    let refusal = nearest_below(&[], 0).expect_err("it is refused");
    assert_eq!((refusal.number(), refusal.to_string().as_str()), (20, "no function"));
}

#[test]
fn an_index_answers_as_the_records_do() {
    let records = records();
    let mut bytes = [0; EXTENT_SIZE];
    let index = Index::make(&records, &mut bytes).expect("it is made");
    assert_eq!((index.functions(), index.is_rising()), (1, true));
    for address in [0, 0xfff, 0x1000, 0x1005, 0x1008, 0x100f, 0x1010, u64::MAX] {
        assert_eq!(index.look_up(&records, address), look_up(&records, address));
    }
    assert_eq!(index.look_up(b"no records", 0x1000).map_err(Refusal::number), Err(19));
    let mut short = [0xa5; EXTENT_SIZE - 1];
    assert_eq!(Index::make(&records, &mut short).map(|_| ()).map_err(Refusal::number), Err(5));
    assert_eq!(short, [0; EXTENT_SIZE - 1]);
    assert_eq!(Index::make(b"no records", &mut short).map(|_| ()).map_err(Refusal::number), Err(19));
}
