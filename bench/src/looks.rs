//! Look-ups in a records buffer of megabytes: by the buffer alone, and by an index of it.

use std::hint::black_box;
use std::time::{Duration, Instant};

use oracle::{Case, answer};
use pezgok::look::{EXTENT_SIZE, Index, look_up};

/// The buffer has at least so many bytes.
const LEAST: usize = 4 << 20;
/// How far apart the units are put.
const APART: u64 = 1 << 40;

/// Prints how long look-ups take, at the start of each function and inside it.
pub fn looks(cases: &[Case], turns: u32) -> Result<(), String> {
    let units: Vec<Vec<u8>> = cases.iter().map(records).filter(|records| !records.is_empty()).collect();
    if units.is_empty() {
        return Err("no unit has a function".into());
    }
    let mut joined = Vec::new();
    for (number, unit) in units.iter().cycle().enumerate().take_while(|(number, _)| *number < 1 << 16) {
        if joined.len() >= LEAST {
            break;
        }
        joined.extend(moved(unit, number as u64 * APART));
    }
    println!("| records | functions | fields | index | look-up | by the index |\n|---|---|---|---|---|---|");
    line("apart", &joined, turns)?;
    // One function more, which overlaps the first: the index is then in the order of the records.
    let first = joined[..3 + usize::from(u16::from_le_bytes([joined[1], joined[2]]))].to_vec();
    joined.extend(first);
    line("one overlaps", &joined, turns)
}

fn records(case: &Case) -> Vec<u8> {
    let mut case = case.clone();
    (case.inlines, case.records, case.files, case.warnings) = (true, u32::MAX, u32::MAX, u32::MAX);
    answer(&case).records
}

/// The records with all addresses so much higher.
fn moved(records: &[u8], by: u64) -> Vec<u8> {
    let (mut moved, mut place) = (records.to_vec(), 0);
    while place < moved.len() {
        let addresses = match moved[place] {
            0x41 | 0x44 => 2,
            0x42 => 1,
            _ => 0,
        };
        for number in 0..addresses {
            let at = place + 3 + 8 * number;
            let address = u64::from_le_bytes(moved[at..at + 8].try_into().expect("eight bytes"));
            moved[at..at + 8].copy_from_slice(&address.wrapping_add(by).to_le_bytes());
        }
        place += 3 + usize::from(u16::from_le_bytes([moved[place + 1], moved[place + 2]]));
    }
    moved
}

fn line(name: &str, records: &[u8], turns: u32) -> Result<(), String> {
    let (mut addresses, mut fields, mut place) = (Vec::new(), 0, 0);
    while place < records.len() {
        if records[place] == 0x41 {
            let number = |at: usize| u64::from_le_bytes(records[at..at + 8].try_into().expect("eight bytes"));
            let (start, end) = (number(place + 3), number(place + 11));
            addresses.extend([start, start + (end - start) / 2]);
        }
        fields += 1;
        place += 3 + usize::from(u16::from_le_bytes([records[place + 1], records[place + 2]]));
    }
    let mut bytes = vec![0; addresses.len() / 2 * EXTENT_SIZE];
    let made = least(turns, || _ = black_box(Index::make(records, &mut bytes)));
    let index = Index::make(records, &mut bytes).map_err(|refusal| format!("no index: {refusal}"))?;
    let few: Vec<u64> = addresses.iter().copied().step_by(addresses.len() / 100 + 1).collect();
    for &address in &few {
        if index.look_up(records, address) != look_up(records, address) {
            return Err(format!("{address:x} is answered otherwise by the index"));
        }
    }
    let plain = least(turns, || few.iter().for_each(|&address| _ = black_box(look_up(records, address)))) / few.len() as u32;
    let indexed =
        least(turns, || addresses.iter().for_each(|&address| _ = black_box(index.look_up(records, address)))) / addresses.len() as u32;
    let micros = |time: Duration| format!("{:.2}", time.as_nanos() as f64 / 1000.0);
    println!(
        "| {name}, {} bytes | {} | {fields} | {} | {} | {} |",
        records.len(),
        index.functions(),
        micros(made),
        micros(plain),
        micros(indexed)
    );
    Ok(())
}

fn least(turns: u32, mut call: impl FnMut()) -> Duration {
    let mut least = Duration::MAX;
    for _ in 0..turns {
        let began = Instant::now();
        call();
        least = least.min(began.elapsed());
    }
    least
}
