//! Records in two trays: the functions that share no address with another, and the others.
//!
//! A look-up in a tray is a binary search only where no two of its functions overlap. So those that do are kept apart: an address of one of the first
//! is held by no other, and of the others the first in the order of the units answers, as in one tray of all. A function that has the addresses of an
//! earlier one, as each unit that uses a template has it, never answers, and is left out.

use std::collections::HashSet;
use std::ops::Range;

use crate::Refusal;
use crate::error::Error;
use crate::fields::{FUNCTION, Fields};
use crate::look::{self, EXTENT_SIZE, Index};

/// A records tray with its index.
#[derive(Clone, Debug, Default)]
pub(crate) struct Layer {
    pub records: Vec<u8>,
    /// The place from which functions are known only by symbol.
    pub by_symbol: usize,
    index: Vec<u8>,
    functions: usize,
    rising: bool,
}

impl Layer {
    /// The proved check of the form is a part of making the index.
    pub fn new(records: Vec<u8>, by_symbol: usize) -> Result<Self, Refusal> {
        let functions = Fields::new(&records).filter(|field| field.tag == FUNCTION).count();
        let mut index = vec![0; functions * EXTENT_SIZE];
        let made = Index::make(&records, &mut index)?;
        let (functions, rising) = (made.functions(), made.is_rising());
        Ok(Self { records, by_symbol, index, functions, rising })
    }

    pub fn look_up(&self, address: u64) -> Result<look::Frames, Refusal> {
        Index::of(&self.index, self.functions, self.rising).look_up(&self.records, address)
    }
}

/// A function's part of a tray, and its addresses.
struct Part {
    bytes: Range<usize>,
    start: u64,
    end: u64,
}

/// The two layers of a tray. Both keep its order.
pub(crate) fn split(records: Vec<u8>, by_symbol: usize) -> Result<[Layer; 2], Error> {
    let mut parts = parts(&records);
    let all = parts.len();
    let mut known = HashSet::new();
    parts.retain(|part| known.insert((part.start, part.end)));
    let overlaps = overlapping(&parts);
    if parts.len() == all && !overlaps.contains(&true) {
        return Ok([Layer::new(records, by_symbol).map_err(Error::Records)?, Layer::default()]);
    }
    let layer = |kept: bool| {
        let (mut tray, mut border) = (Vec::new(), None);
        for (part, _) in parts.iter().zip(&overlaps).filter(|&(_, &overlaps)| overlaps == kept) {
            if part.bytes.start >= by_symbol {
                border.get_or_insert(tray.len());
            }
            tray.extend_from_slice(&records[part.bytes.clone()]);
        }
        let border = border.unwrap_or(tray.len());
        Layer::new(tray, border).map_err(Error::Records)
    };
    Ok([layer(false)?, layer(true)?])
}

fn parts(records: &[u8]) -> Vec<Part> {
    let mut parts: Vec<Part> = Vec::new();
    for field in Fields::new(records) {
        if field.tag == FUNCTION {
            parts.push(Part { bytes: field.place..field.end(), start: field.number(0, 8), end: field.number(8, 8) });
        } else if let Some(part) = parts.last_mut() {
            part.bytes.end = field.end();
        }
    }
    parts
}

/// Whether each function shares an address with some other.
fn overlapping(parts: &[Part]) -> Vec<bool> {
    let mut order: Vec<usize> = (0..parts.len()).collect();
    order.sort_unstable_by_key(|&place| parts[place].start);
    let mut overlaps = vec![false; parts.len()];
    let mut reached = 0;
    for (at, &place) in order.iter().enumerate() {
        let next = order.get(at + 1).map(|&next| parts[next].start);
        overlaps[place] = parts[place].start < reached || next.is_some_and(|start| start < parts[place].end);
        reached = reached.max(parts[place].end);
    }
    overlaps
}
