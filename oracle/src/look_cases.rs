//! Queries of records buffers (document 02, E6), and the lines of text that they answer. crates/look_answers answers the same.

use crate::generate;
use crate::lookup::{self, Wanted};
use crate::output::field;
use crate::random::Random;
use crate::{Case, answer};

/// What a list is filled with before it is lent.
const FILLED: u8 = 0xa5;
/// The longest list that a query lends, in a file of calls.
const LONGEST: u64 = 160;
/// How many queries a call of a file has.
const RECORDED: u64 = 8;
/// The first of the numbers by which these calls are drawn, so that no other kind of call is drawn by them.
const FIRST: u64 = 1 << 33;

/// A records buffer and what is asked of it.
pub struct Call {
    pub records: Vec<u8>,
    pub queries: Vec<Query>,
}

#[derive(Clone, Copy, Debug)]
pub enum Query {
    At(u64),
    Below(u64),
    /// A window, and how many bytes of list are lent.
    Inside(u64, u64, usize),
    Crossing(u64, u64, usize),
}

// ---- as they stand in a file

impl Query {
    fn bytes(self) -> Vec<u8> {
        let (kind, first, second, length) = match self {
            Self::At(address) => (1, address, 0, 0),
            Self::Below(address) => (2, address, 0, 0),
            Self::Inside(start, end, length) => (3, start, end, length),
            Self::Crossing(start, end, length) => (4, start, end, length),
        };
        [&[kind], first.to_le_bytes().as_slice(), &second.to_le_bytes(), &(length as u16).to_le_bytes()].concat()
    }

    fn answer(self, records: &[u8]) -> String {
        let listed = |wanted, window, length| match lookup::listed(records, wanted, window, length) {
            Ok(list) => {
                let rest = vec![FILLED; length - list.len()];
                format!("list {} {}", list.len(), hex(&[list, rest].concat()))
            }
            Err(refusal) => format!("refused {refusal} {}", hex(&vec![0; length])),
        };
        match self {
            Self::At(address) => match lookup::look_up(records, address) {
                Ok(frames) => {
                    let row = frames.row.map_or("no row".into(), |place| format!("row {place}"));
                    let chain: String = frames.chain.iter().map(|place| format!(" {place}")).collect();
                    format!("function {} {row} chain{chain}", frames.function)
                }
                Err(refusal) => format!("refused {refusal} chain"),
            },
            Self::Below(address) => match lookup::nearest_below(records, address) {
                Ok(place) => format!("function {place}"),
                Err(refusal) => format!("refused {refusal}"),
            },
            Self::Inside(start, end, length) => listed(Wanted::Inside, (start, end), length),
            Self::Crossing(start, end, length) => listed(Wanted::Crossing, (start, end), length),
        }
    }
}

fn hex(bytes: &[u8]) -> String {
    bytes.iter().map(|byte| format!("{byte:02x}")).collect()
}

impl Call {
    /// The length of what follows, the length of the buffer, the buffer, the queries.
    pub fn bytes(&self) -> Vec<u8> {
        let queries: Vec<u8> = self.queries.iter().flat_map(|query| query.bytes()).collect();
        let body = [(self.records.len() as u32).to_le_bytes().as_slice(), &self.records, &queries].concat();
        [(body.len() as u32).to_le_bytes().as_slice(), &body].concat()
    }

    pub fn answer(&self) -> String {
        self.queries.iter().map(|query| query.answer(&self.records)).collect::<Vec<_>>().join("\n")
    }
}

// ---- buffers

/// Functions with rows, trees and call sites, by hand shapes: siblings that overlap, gaps, children outside their parents, rows in any order,
/// functions that overlap, equal ends.
pub fn shaped(random: &mut Random) -> Vec<u8> {
    let mut records = Vec::new();
    let functions = if random.chance(3) { 0 } else { 1 + random.below(5) };
    for _ in 0..functions {
        let start = random.pick(&[0, 1, 10, 16, 20, 0x1000, u64::MAX - 40]);
        let range = stretch(random, start, 40);
        field(&mut records, 0x41, &[&range, &b"dimmer"[..random.below(7) as usize]]);
        for _ in 0..random.below(4) {
            let address = start.wrapping_add(random.below(44)).wrapping_sub(2);
            field(&mut records, 0x42, &[&address.to_le_bytes(), &vec![1; lookup::ROW_SIZE - 8]]);
        }
        if random.chance(80) {
            nodes(random, &mut records, start);
        }
        for _ in 0..random.below(3) {
            field(&mut records, 0x45, &[&random.next().to_le_bytes(), &[random.below(256) as u8], b".*"]);
        }
    }
    records
}

/// A range that starts at an address or a little behind it.
fn stretch(random: &mut Random, start: u64, longest: u64) -> Vec<u8> {
    let start = start.saturating_add(random.below(8));
    let end = start.saturating_add(1 + random.below(longest)).max(start.wrapping_add(1));
    [start.to_le_bytes(), end.to_le_bytes()].concat()
}

fn nodes(random: &mut Random, records: &mut Vec<u8>, start: u64) {
    let deep = random.chance(2);
    let (count, mut depth) = (if deep { 255 + random.below(4) } else { 1 + random.below(9) }, 0);
    for number in 0..count {
        let next = if number == 0 {
            0
        } else if deep {
            depth + 1
        } else {
            1 + random.below(depth + 1)
        };
        depth = next;
        field(records, 0x43, &[&(depth as u16).to_le_bytes(), &[1, 0, 0, 0, 2, 0, 0, 0], b"fade"]);
        for _ in 0..1 + random.below(3) {
            let from = start + random.below(24);
            let range = if deep { [start.to_le_bytes(), u64::MAX.to_le_bytes()].concat() } else { stretch(random, from, 20) };
            field(records, 0x44, &[&range]);
        }
    }
}

/// The buffer with one thing wrong, or by chance still right: a byte, its end, a field more, less, or in another place.
pub fn spoiled(random: &mut Random, mut records: Vec<u8>) -> Vec<u8> {
    let places = places(&records);
    if places.len() < 2 {
        return vec![0x41; random.below(5) as usize];
    }
    let at = random.below(places.len() as u64 - 1) as usize;
    let one: Vec<u8> = records[places[at]..places[at + 1]].to_vec();
    match random.below(6) {
        0 => {
            let at = random.place(&records);
            records[at] = random.pick(&[0, 1, 0x41, 0x42, 0x43, 0x44, 0x45, 0x46, 0xff]);
        }
        1 => records.truncate(random.place(&records)),
        2 => records.push(random.next() as u8),
        3 => drop(records.drain(places[at]..places[at + 1])),
        4 => drop(records.splice(places[at]..places[at], one)),
        _ => {
            let to = random.pick(&places);
            records.splice(to..to, one);
        }
    }
    records
}

/// Where the fields of a sound buffer begin, and its end.
fn places(records: &[u8]) -> Vec<usize> {
    let (mut places, mut place) = (vec![0], 0);
    while let Some(head) = records.get(place..place + 3) {
        place += 3 + usize::from(u16::from_le_bytes([head[1], head[2]]));
        places.push(place);
    }
    places
}

/// What a generated import writes with inlines; nothing where it is refused.
pub fn imported(seed: u64, number: u64) -> (Case, Vec<u8>) {
    let mut case = generate::case(seed, number);
    (case.inlines, case.records, case.files, case.warnings) = (true, 1 << 22, 1 << 22, 1 << 22);
    let records = answer(&case).records;
    (case, records)
}

// ---- calls

/// Those of a seed, without end.
pub fn calls(seed: u64) -> impl Iterator<Item = Call> {
    (0..).map(move |number| call(seed, number, RECORDED))
}

pub fn call(seed: u64, number: u64, count: u64) -> Call {
    let mut random = Random::new(seed, FIRST + number);
    let mut records = match number % 3 {
        0 => imported(seed, number).1,
        _ => shaped(&mut random),
    };
    if records.is_empty() || records.len() > 60_000 {
        records = shaped(&mut random);
    }
    if random.chance(20) {
        records = spoiled(&mut random, records);
    }
    let queries = queries(&mut random, &records, count);
    Call { records, queries }
}

/// Queries at the edges of what the buffer has, with lists that are exact, a byte short and longer.
pub fn queries(random: &mut Random, records: &[u8], count: u64) -> Vec<Query> {
    let edges = lookup::edges(records);
    (0..count)
        .map(|_| {
            let (first, second) = (random.pick(&edges), random.pick(&edges));
            let (start, end) = if random.chance(85) { (first.min(second), first.max(second)) } else { (first, second) };
            let wanted = random.pick(&[Wanted::Inside, Wanted::Crossing]);
            match random.below(5) {
                0..=1 => Query::At(first),
                2 => Query::Below(first),
                _ => {
                    let needed = lookup::listed(records, wanted, (start, end), usize::MAX).map_or(0, |list| list.len() as u64);
                    let any = random.below(40);
                    let length = random.pick(&[needed, needed.saturating_sub(1), needed + 7, any]).min(LONGEST) as usize;
                    if wanted == Wanted::Inside { Query::Inside(start, end, length) } else { Query::Crossing(start, end, length) }
                }
            }
        })
        .collect()
}
