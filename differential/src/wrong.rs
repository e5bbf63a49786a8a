//! Wrong imports, a wrong pass and a wrong join that the comparison has to report: each alters what the proved one left behind, or calls another in its
//! place.

use pezgok::{Buffers, Finished, Inputs, Options, Refusal};

use crate::import::{Got, slice};
use crate::joins;
use crate::pass::Said;

#[derive(Clone, Copy)]
pub enum Wrong {
    Import(fn(&mut Got)),
    /// The proved import of other inputs.
    Inputs(fn(Inputs<'_>) -> Inputs<'_>),
    /// In place of the import of all units.
    Units(fn(Inputs<'_>, Options, Buffers<'_>) -> Result<Finished, Refusal>),
    Pass(fn(&mut Said)),
    Join(fn(&mut joins::Got)),
}

pub fn named(name: &str) -> Result<Wrong, String> {
    Ok(match name {
        "refuses-all" => Wrong::Import(refuses_all),
        "stock-record" => Wrong::Import(stock_record),
        "writes-nothing" => Wrong::Import(writes_nothing),
        "copies-the-first" => Wrong::Import(copies_the_first),
        "forgets-columns" => Wrong::Import(forgets_columns),
        "invents-statistics" => Wrong::Import(invents_statistics),
        "forgets-addresses" => Wrong::Inputs(forgets_addresses),
        "imports-the-first" => Wrong::Units(imports_the_first),
        "passes-over-a-unit" => Wrong::Units(passes_over_a_unit),
        "forgets-a-byte" => Wrong::Pass(forgets_a_byte),
        "renames-a-symbol" => Wrong::Join(renames_a_symbol),
        _ => return Err(format!("{name} is no wrong import, no wrong pass and no wrong join")),
    })
}

fn refuses_all(got: &mut Got) {
    got.refusal = 2;
    (got.lengths, got.statistics) = ([0; 3], [0; 4]);
    got.buffers.iter_mut().for_each(|buffer| slice(buffer).fill(0));
}

/// The function dim from 1000 to 1010, whatever was asked.
fn stock_record(got: &mut Got) {
    const STOCK: &[u8] = b"\x41\x13\x00\x00\x10\x00\x00\x00\x00\x00\x00\x10\x10\x00\x00\x00\x00\x00\x00dim";
    if got.refusal == 0 && got.buffers[0].len() >= STOCK.len() {
        got.buffers[0][..STOCK.len()].copy_from_slice(STOCK);
        got.lengths[0] = STOCK.len() as u64;
    }
}

fn writes_nothing(got: &mut Got) {
    if got.refusal == 0 {
        got.buffers.iter_mut().for_each(|buffer| slice(buffer).fill(0xa5));
    }
}

/// The bytes of the records, none after a refusal, and where each field of a tag begins.
fn fields(got: &mut Got, tag: u8) -> (&mut [u8], Vec<usize>) {
    let length = got.lengths[0] as usize;
    let records = &mut got.buffers[0][..if got.refusal == 0 { length } else { 0 }];
    let (mut starts, mut at) = (Vec::new(), 0);
    while at + 3 <= records.len() {
        if records[at] == tag {
            starts.push(at);
        }
        at += 3 + usize::from(u16::from_le_bytes([records[at + 1], records[at + 2]]));
    }
    (records, starts)
}

/// The first record's bytes over those of each later one, as far as they go.
fn copies_the_first(got: &mut Got) {
    let (records, starts) = fields(got, 0x41);
    if let [_, second, ..] = starts[..] {
        let first = records[..second].to_vec();
        for start in &starts[1..] {
            let end = (start + first.len()).min(records.len());
            records[*start..end].copy_from_slice(&first[..end - start]);
        }
    }
}

/// 0 for the column of each row, its last two bytes.
fn forgets_columns(got: &mut Got) {
    let (records, starts) = fields(got, 0x42);
    starts.iter().for_each(|start| records[start + 19..start + 21].fill(0));
}

fn invents_statistics(got: &mut Got) {
    if got.refusal == 0 {
        got.statistics[1] += 1;
    }
}

/// No address table.
fn forgets_addresses(inputs: Inputs<'_>) -> Inputs<'_> {
    Inputs { addresses: &[], ..inputs }
}

/// The first unit alone, where all are asked for.
fn imports_the_first(inputs: Inputs<'_>, options: Options, buffers: Buffers<'_>) -> Result<Finished, Refusal> {
    pezgok::import(inputs, Options { ordinal: 0, ..options }, buffers)
}

/// An import of all units that finishes with the first one where a later one is refused.
fn passes_over_a_unit(inputs: Inputs<'_>, options: Options, buffers: Buffers<'_>) -> Result<Finished, Refusal> {
    let Buffers { work, records, files, warnings } = buffers;
    let first = Options { ordinal: 0, ..options };
    if pezgok::measure_dwarf(inputs, options, work).is_err() && pezgok::measure(inputs, first, work).is_ok() {
        return pezgok::import(inputs, first, Buffers { work, records, files, warnings });
    }
    pezgok::import_dwarf(inputs, options, Buffers { work, records, files, warnings })
}

/// A records buffer that is a byte too short.
fn forgets_a_byte(said: &mut Said) {
    said.lengths[0] = said.lengths[0].saturating_sub(1);
}

/// The last byte of the result, which a name mostly ends with.
fn renames_a_symbol(got: &mut joins::Got) {
    if let Some(last) = got.length.checked_sub(1) {
        got.result[last] ^= 1;
    }
}
