//! Joins of symbols to records trays of growing size. The Rust has no such join; what it answers is held to the oracle's model on the smallest tray.

use std::hint::black_box;
use std::time::Duration;

use oracle::symbols::Join;

use crate::sides::timed;
use crate::tables::{micros, ratio};

const START: u64 = 0x1000;
/// From one function's start to the next one's; a function takes half of it, so that a symbol fits behind it.
const STEP: u64 = 64;
/// The fields of one function: itself, 8 rows, 2 nodes with a range each, 3 call sites.
const FIELDS: u64 = 16;
/// Functions of the smallest tray; the largest has sixteen times as many, and a million fields.
const LEAST: u64 = 4_096;

/// The place in the tray, or in the list, of each number below a count, which is a power of two.
type Order = fn(u64, u64) -> u64;

const FAMILIES: [(&str, Order, Order); 3] = [
    ("functions and symbols in order", |place, _| place, |place, _| place),
    ("functions in no order", |place, all| place * 40_503 % all, |place, _| place),
    ("symbols in no order", |place, _| place, |place, all| place * 40_503 % all),
];

/// For each family a table: with as much work as spares every walk and, of the smallest tray, with none.
pub fn joins(turns: u32) -> Result<(), String> {
    for (name, functions, symbols) in FAMILIES {
        println!("\n{name}\n");
        println!("| fields | functions | symbols | joined | ours | growth | without work |\n|---|---|---|---|---|---|---|");
        let mut before: Option<Duration> = None;
        for doubling in 0..5 {
            let count = LEAST << doubling;
            let join = join(count, functions, symbols);
            let mut result = vec![0; join.room];
            let mut work = vec![0; pezgok::symbols_work_length(join.records.len(), join.symbols.len())];
            let mut call =
                |work: &mut [u8]| pezgok::join_symbols_with(black_box(&join.records), black_box(&join.symbols), &mut result, work);
            let length = call(&mut work).map_err(|refusal| refusal.to_string())?;
            let time = (0..turns).map(|_| timed(|| call(&mut work)).0).min().unwrap_or_default();
            let slow = if doubling == 0 { micros(timed(|| call(&mut [])).0) } else { "-".to_owned() };
            let growth = before.map_or_else(|| "-".to_owned(), |before| ratio(time, before));
            if doubling == 0 && join.answer() != (0, result[..length].to_vec()) {
                return Err("the answers differ".into());
            }
            // Every other symbol stands behind a function and is joined.
            println!("| {} | {count} | {count} | {} | {} | {growth} | {slow} |", count * FIELDS, count / 2, micros(time));
            before = Some(time);
        }
    }
    Ok(())
}

fn join(count: u64, functions: Order, symbols: Order) -> Join {
    let (mut records, mut list) = (Vec::new(), Vec::new());
    for place in 0..count {
        let start = START + STEP * functions(place, count);
        function(start, &mut records);
        let number = symbols(place, count);
        // An even one is a function's own, an odd one stands behind a function.
        let own = START + STEP * number;
        let start = if number % 2 == 0 { own } else { own + STEP / 2 };
        field(0x50, &[&start.to_le_bytes(), &(STEP / 2).to_le_bytes(), b"strobe"], &mut list);
    }
    let room = records.len() + list.len();
    Join { records, symbols: list, room }
}

fn function(start: u64, records: &mut Vec<u8>) {
    let range = [start.to_le_bytes(), (start + STEP / 2).to_le_bytes()];
    let range = range.as_flattened();
    field(0x41, &[range, b"fade"], records);
    for row in 0..8 {
        field(0x42, &[&(start + row).to_le_bytes(), &1u32.to_le_bytes(), &10u32.to_le_bytes(), &3u16.to_le_bytes()], records);
    }
    for depth in 0..2u16 {
        field(0x43, &[&depth.to_le_bytes(), &1u32.to_le_bytes(), &10u32.to_le_bytes(), b"dim"], records);
        field(0x44, &[range], records);
    }
    for site in 0..3 {
        field(0x45, &[&(start + site).to_le_bytes(), &[0]], records);
    }
}

fn field(tag: u8, parts: &[&[u8]], bytes: &mut Vec<u8>) {
    let payload = parts.concat();
    bytes.push(tag);
    bytes.extend((payload.len() as u16).to_le_bytes());
    bytes.extend(payload);
}
