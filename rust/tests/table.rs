//! Tables: imports of several units, symbols, units that are left out, frames.

use std::error::Error;
use std::fs;
use std::path::PathBuf;

use pezgok::look::look_up;
use pezgok::{Answer, Builder, File, Frame, Inputs, Kind, NotImported, Refusal, Table, Unit, join_symbols};

/// Document 01's unit: dim from 1000 to 1010 hex with rows of lines 10 and 12, fade inlined from 1004 to 1008 at line 11.
fn unit() -> [Vec<u8>; 2] {
    let folder = PathBuf::from(env!("CARGO_MANIFEST_DIR")).join("../crates/listing/data");
    ["unit.main", "unit.line"].map(|name| fs::read(folder.join(name)).expect("the listing program's unit is there"))
}

fn builder(times: usize) -> Builder {
    let [main, program] = unit();
    let mut builder = Builder::new();
    for _ in 0..times {
        let inputs = Inputs { main: &main, program: &program, ..Inputs::default() };
        let done = builder.import(Unit::uncounted(inputs, 0)).expect("it is finished");
        assert_eq!((done.functions, done.line_rows, done.inline_nodes), (1, 2, 1));
    }
    builder
}

fn symbol(start: u64, size: u64, name: &[u8]) -> Vec<u8> {
    let length = (16 + name.len()) as u16;
    [&[0x50][..], &length.to_le_bytes(), &start.to_le_bytes(), &size.to_le_bytes(), name].concat()
}

fn words(frame: &Frame<'_>) -> String {
    let function = String::from_utf8_lossy(frame.function);
    let place = frame.location.map(|place| (place.file.map(|file| file.to_string()), place.line, place.column));
    format!("{function} {:?} {place:?}", frame.kind)
}

fn frames(table: &Table, address: u64) -> Vec<String> {
    match table.look_up(address) {
        Answer::Frames(frames) => frames.map(|frame| words(&frame)).collect(),
        other => panic!("no frames at {address:x}: {other:?}"),
    }
}

#[test]
fn frames_are_innermost_first() {
    let table = builder(1).finish().expect("a table");
    let fade = r#"fade Inlined Some((Some("/src/cue.c"), 10, 0))"#;
    assert_eq!(frames(&table, 0x1005), [fade, r#"dim Function Some((Some("/src/cue.c"), 11, 0))"#]);
    assert_eq!(frames(&table, 0x1000), [r#"dim Function Some((Some("/src/cue.c"), 10, 0))"#]);
    assert_eq!(frames(&table, 0x100f), [r#"dim Function Some((Some("/src/cue.c"), 12, 0))"#]);
    let Answer::Frames(mut both) = table.look_up(0x1005) else { panic!("no frames") };
    assert_eq!((both.len(), both.function()), (2, (&b"dim"[..], 0x1000, 0x1010)));
    assert_eq!(both.next_back().map(|frame| (frame.function, frame.kind)), Some((&b"dim"[..], Kind::Function)));
    assert_eq!(both.next().map(|frame| words(&frame)).as_deref(), Some(fade));
    assert_eq!((both.len(), both.next().is_none(), both.next_back().is_none()), (0, true, true));
    for address in [0, 0xfff, 0x1010, u64::MAX] {
        assert!(matches!(table.look_up(address), Answer::Nothing));
    }
}

#[test]
fn files_of_several_units_have_numbers_of_their_own() {
    let table = builder(3).finish().expect("a table");
    let path = |number| table.file(number).map(|file| file.to_string());
    assert_eq!([1, 2, 3].map(path), [1, 2, 3].map(|_| Some("/src/cue.c".to_string())));
    assert_eq!([0, 4, u32::MAX].map(path), [None, None, None]);
    // All three hold the address, and the first answers.
    assert_eq!(frames(&table, 0x1005).len(), 2);
    assert_eq!(table.functions().count(), 1);
}

#[test]
fn functions_are_known_by_symbol() {
    let mut builder = builder(1);
    builder.add_symbols(&[symbol(0x1008, 8, b"inside"), symbol(0x2000, 0x10, b"strobe"), symbol(0x3000, 0, b"of no size")].concat());
    let table = builder.finish().expect("a table");
    assert_eq!(frames(&table, 0x2005), ["strobe Symbol None"]);
    assert_eq!(frames(&table, 0x1009).len(), 1);
    assert!(matches!(table.look_up(0x3000), Answer::Nothing));
    let by_symbol: Vec<_> = table.functions().map(|function| (function.name(), function.is_by_symbol())).collect();
    assert_eq!(by_symbol, [(&b"dim"[..], false), (b"strobe", true)]);
    let mut builder = Builder::new();
    builder.add_symbols(b"no symbol");
    let error = builder.finish().expect_err("they are refused");
    assert_eq!(error.to_string(), "the symbols can't be joined: refused 26, misshapen symbol");
    assert!(error.source().is_some_and(|source| source.downcast_ref::<Refusal>().is_some()));
}

#[test]
fn addresses_of_units_that_are_left_out_say_so() {
    let mut builder = builder(1);
    let ranges = vec![0x1000..0x1010, 0x2000..0x3000, 0x2100..0x2200];
    builder.leave_out(NotImported { unit: 7, name: "big.c".into(), reason: "more than 65,536 fields".into(), ranges });
    builder.leave_out(NotImported { unit: 8, name: "deep.c".into(), reason: "refused 14, too deep".into(), ranges: Vec::new() });
    builder.add_symbols(&[symbol(0x2000, 0x10, b"strobe"), symbol(0x4000, 0x10, b"bare")].concat());
    let table = builder.finish().expect("a table");
    let left_out = |address| match table.look_up(address) {
        Answer::NotImported { unit, symbol } => Some((unit.unit, symbol)),
        _ => None,
    };
    assert_eq!([0x2000, 0x200f].map(left_out), [Some((7, Some(&b"strobe"[..]))); 2]);
    assert_eq!([0x2010, 0x2150, 0x2fff].map(left_out), [Some((7, None)); 3]);
    // What is imported answers all the same.
    assert_eq!([0x1005, 0x1fff, 0x3000, 0x4000].map(left_out), [None; 4]);
    assert_eq!(frames(&table, 0x1005).len(), 2);
    assert_eq!(frames(&table, 0x4000), ["bare Symbol None"]);
    assert_eq!(table.not_imported().len(), 2);
}

#[test]
fn a_refused_unit_changes_nothing() {
    let mut builder = builder(1);
    let refusal = builder.import(Unit::uncounted(Inputs { main: &[0x10, 0, 0], ..Inputs::default() }, 0)).expect_err("it is refused");
    assert_eq!((refusal.number(), refusal.to_string().as_str()), (2, "misshapen"));
    let [main, program] = unit();
    let inputs = Inputs { main: &main, program: &program, ..Inputs::default() };
    assert_eq!(builder.import(Unit::uncounted(inputs, 1)).map_err(Refusal::number), Err(4));
    assert_eq!(builder.import(Unit { inputs, ordinal: 0, fields: 0 }).map_err(Refusal::number), Err(5));
    // A number of fields that is too large changes nothing.
    assert!(Builder::new().import(Unit { inputs, ordinal: 0, fields: usize::MAX }).is_ok());
    let table = builder.finish().expect("a table");
    assert_eq!((table.functions().count(), table.file(2)), (1, None));
}

/// A table keeps functions that overlap apart from the others. It answers as a look-up in one tray of all does.
#[test]
fn overlapping_functions_are_found_as_in_one_tray() {
    let mut seed = 1_u64;
    let mut random = |below: u64| {
        seed = seed.wrapping_mul(6_364_136_223_846_793_005).wrapping_add(1_442_695_040_888_963_407);
        (seed >> 33) % below
    };
    for round in 0..200 {
        let mut list = Vec::new();
        for number in 0..random(40) {
            // Longer ones overlap more.
            list.extend(symbol(random(1000), random(1 + 4 * (round % 20)), format!("f{number}").as_bytes()));
        }
        let mut tray = vec![0; list.len()];
        let length = join_symbols(&[], &list, &mut tray).expect("they are joined");
        let mut builder = Builder::new();
        builder.add_symbols(&list);
        let table = builder.finish().expect("a table");
        for address in 0..1100 {
            let one = look_up(&tray[..length], address).ok().map(|found| found.function);
            let name = one.map(|place| &tray[place + 19..place + 3 + usize::from(u16::from_le_bytes([tray[place + 1], tray[place + 2]]))]);
            let both = match table.look_up(address) {
                Answer::Frames(frames) => Some(frames.function().0),
                _ => None,
            };
            assert_eq!(both, name, "round {round}, address {address}");
        }
    }
}

#[test]
fn trees_are_read() {
    let table = builder(1).finish().expect("a table");
    let function = table.functions().next().expect("a function");
    assert_eq!((function.name(), function.range()), (&b"dim"[..], 0x1000..0x1010));
    let nodes: Vec<_> = function.nodes().map(|node| (node.depth, node.name, node.call_line, node.ranges)).collect();
    assert_eq!(nodes, [(0, &b"dim"[..], 0, vec![0x1000..0x1010]), (1, b"fade", 11, vec![0x1004..0x1008])]);
}

#[test]
fn paths_are_joined_by_their_own_separator() {
    let cases: [(&[u8], &[u8], &str); 7] = [
        (b"/src", b"cue.c", "/src/cue.c"),
        (b"/", b"cue.c", "/cue.c"),
        (b"", b"cue.c", "cue.c"),
        (b"C:\\rig", b"dim.c", "C:\\rig\\dim.c"),
        (b"C:\\", b"dim.c", "C:\\dim.c"),
        (b"C:/rig", b"dim.c", "C:/rig/dim.c"),
        (b"\\\\host\\rig", b"dim.c", "\\\\host\\rig\\dim.c"),
    ];
    for (directory, basename, path) in cases {
        assert_eq!(File { directory, basename }.to_string(), path);
    }
}
