//! Saved tables, and streams of units: what is sound is read, everything else is refused.

use std::fs;
use std::path::PathBuf;

use pezgok::{Answer, Builder, Error, Event, Inputs, NotImported, Table, Unit, read_units};

fn unit() -> [Vec<u8>; 2] {
    let folder = PathBuf::from(env!("CARGO_MANIFEST_DIR")).join("../crates/listing/data");
    ["unit.main", "unit.line"].map(|name| fs::read(folder.join(name)).expect("the listing program's unit is there"))
}

const SYMBOL: &[u8] = b"\x50\x16\x00\x00\x20\x00\x00\x00\x00\x00\x00\x10\x00\x00\x00\x00\x00\x00\x00strobe";

fn table() -> Table {
    let [main, program] = unit();
    let mut builder = Builder::new();
    let inputs = Inputs { main: &main, program: &program, ..Inputs::default() };
    builder.import(Unit::uncounted(inputs, 0)).expect("it is finished");
    builder.add_symbols(SYMBOL);
    // One that runs into it, so that both trays of functions have some.
    builder.add_symbols(b"\x50\x14\x00\xfc\x1f\x00\x00\x00\x00\x00\x00\x08\x00\x00\x00\x00\x00\x00\x00slow");
    let ranges = vec![0x3000..0x3010, 0x5000..0x5001];
    builder.leave_out(NotImported { unit: 7, name: "big.c".into(), reason: "more than 65,536 fields".into(), ranges });
    builder.finish().expect("a table")
}

fn answers(table: &Table) -> Vec<String> {
    let addresses = (0xff8..0x1018).chain(0x1ff8..0x2018).chain(0x2ff8..0x3018);
    let answer = |address| match table.look_up(address) {
        Answer::Frames(frames) => frames.map(|frame| format!("{frame:?}")).collect::<Vec<_>>().join(";"),
        Answer::NotImported { unit, symbol } => format!("{unit:?} {symbol:?}"),
        Answer::Nothing => String::new(),
    };
    addresses.map(answer).collect()
}

#[test]
fn a_saved_table_answers_as_before() {
    let table = table();
    let bytes = table.to_bytes();
    assert!(Table::is_saved(&bytes));
    let read = Table::from_bytes(&bytes).expect("it is sound");
    assert_eq!(answers(&read), answers(&table));
    assert_eq!(read.to_bytes(), bytes);
    let empty = Builder::new().finish().expect("a table");
    assert!(Table::from_bytes(&empty.to_bytes()).is_ok());
}

#[test]
fn damage_is_noticed() {
    let bytes = table().to_bytes();
    for place in 0..bytes.len() {
        for change in [0x01, 0x80, 0xff] {
            let mut damaged = bytes.clone();
            damaged[place] ^= change;
            let error = Table::from_bytes(&damaged).expect_err("it is refused");
            match place {
                0..8 => assert!(matches!(error, Error::Foreign)),
                8..12 => assert!(matches!(error, Error::Version(_))),
                _ => assert!(matches!(error, Error::Damaged(_))),
            }
        }
    }
    for length in 0..bytes.len() {
        assert!(Table::from_bytes(&bytes[..length]).is_err());
    }
    let longer = [&bytes[..], &[0]].concat();
    assert!(matches!(Table::from_bytes(&longer), Err(Error::Damaged(_))));
    assert!(matches!(Table::from_bytes(b"\x7fELF and so on"), Err(Error::Foreign)));
}

/// Records that are none are refused by the proved check, whatever the checksum says.
#[test]
fn misshapen_records_are_refused() {
    let mut bytes = table().to_bytes();
    let at = bytes.windows(3).position(|part| part == [0x41, 22, 0]).expect("the symbol's function");
    // Its end is now below its start.
    bytes[at + 3 + 15] = 0;
    bytes[at + 3 + 8..at + 3 + 16].fill(0);
    let sum = checksum(&bytes[20..]);
    bytes[12..20].copy_from_slice(&sum.to_le_bytes());
    let error = Table::from_bytes(&bytes).expect_err("it is refused");
    assert_eq!(error.to_string(), "a damaged index (its records are no records tray): make it again");
}

/// The checksum, written again.
fn checksum(bytes: &[u8]) -> u64 {
    let mut sum = 0xcbf2_9ce4_8422_2325_u64;
    let mut padded = bytes.to_vec();
    // A rest of no bytes counts as a word of 0 too.
    padded.resize(bytes.len() / 8 * 8 + 8, 0);
    for word in padded.chunks(8).map(|word| u64::from_le_bytes(word.try_into().expect("eight bytes"))).chain([bytes.len() as u64]) {
        sum = (sum ^ word).wrapping_mul(0x9e37_79b9_7f4a_7c15).rotate_left(29);
    }
    sum
}

fn block(kind: u8, numbers: &[u64], parts: &[&[u8]]) -> Vec<u8> {
    let mut bytes = vec![kind];
    bytes.extend((numbers.len() as u32).to_le_bytes());
    bytes.extend((parts.len() as u32).to_le_bytes());
    bytes.extend(numbers.iter().flat_map(|number| number.to_le_bytes()));
    for part in parts {
        bytes.extend((part.len() as u64).to_le_bytes());
        bytes.extend_from_slice(part);
    }
    bytes
}

fn stream() -> Vec<u8> {
    let [main, program] = unit();
    [
        b"pezgok-units-1\n".to_vec(),
        block(1, &[3], &[]),
        block(2, &[0, 0, 100, 0x1000, 0x1010], &[b"cue.c", &main, b"", &program]),
        block(3, &[1, 0x3000, 0x3010], &[b"big.c", b"more than 65,536 fields"]),
        block(2, &[2, 0, 1, 0x4000, 0x4010], &[b"bad.c", b"\x10\x00\x00", b"", b""]),
        block(4, &[], &[SYMBOL]),
        block(0, &[], &[]),
    ]
    .concat()
}

#[test]
fn a_stream_is_read() {
    let mut builder = Builder::new();
    let mut told = Vec::new();
    let told_of = |event: Event<'_>| match event {
        Event::Units(count) => told.push(format!("{count} units")),
        Event::Imported { unit } => told.push(format!("{unit} is imported")),
        Event::NotImported(unit) => told.push(format!("{} {}: {}", unit.unit, unit.name, unit.reason)),
    };
    read_units(&stream()[..], &mut builder, told_of).expect("it is sound");
    assert_eq!(told, ["3 units", "0 is imported", "1 big.c: more than 65,536 fields", "2 bad.c: refused 2, misshapen"]);
    let table = builder.finish().expect("a table");
    assert!(matches!(table.look_up(0x1005), Answer::Frames(frames) if frames.len() == 2));
    assert!(matches!(table.look_up(0x2000), Answer::Frames(frames) if frames.len() == 1));
    assert!(matches!(table.look_up(0x3000), Answer::NotImported { unit, .. } if unit.unit == 1));
    assert!(matches!(table.look_up(0x4000), Answer::NotImported { unit, .. } if unit.unit == 2));
}

#[test]
fn other_streams_are_refused() {
    let whole = stream();
    for length in 0..whole.len() {
        let error = read_units(&whole[..length], &mut Builder::new(), |_| ()).expect_err("it breaks off");
        assert!(matches!(error, Error::Stream("it breaks off")), "{length}: {error}");
    }
    for (kind, numbers, parts) in [(9, &[][..], &[][..]), (2, &[1], &[]), (3, &[], &[&b"big.c"[..], b"why"]), (0, &[1], &[])] {
        let bytes = [b"pezgok-units-1\n".to_vec(), block(kind, numbers, parts)].concat();
        assert!(matches!(read_units(&bytes[..], &mut Builder::new(), |_| ()), Err(Error::Stream(_))));
    }
    assert!(matches!(read_units(&b"pezgok-units-9\n"[..], &mut Builder::new(), |_| ()), Err(Error::Stream("it begins otherwise"))));
    let many = [&b"pezgok-units-1\n\x04"[..], &[0xff; 8]].concat();
    assert!(matches!(read_units(&many[..], &mut Builder::new(), |_| ()), Err(Error::Stream(_))));
}
