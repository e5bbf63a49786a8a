//! Reading what `dumper stream` writes: a mark, then blocks of a kind, numbers and parts. The dumper's source says what each holds.

use std::io::{self, Read};
use std::ops::Range;

use crate::Inputs;
use crate::builder::{Builder, Unit};
use crate::error::Error;
use crate::table::NotImported;

const MARK: &[u8] = b"pezgok-units-1\n";
const END: u8 = 0;
const COUNT: u8 = 1;
const UNIT: u8 = 2;
const SKIPPED: u8 = 3;
const SYMBOLS: u8 = 4;

/// No block of a sound stream has more numbers or parts.
const MOST: u32 = 1 << 28;

/// What is met while a stream is read.
#[derive(Clone, Copy, Debug)]
pub enum Event<'a> {
    /// How many units are to come.
    Units(u64),
    /// A unit, or a part of one, is imported.
    Imported { unit: u64 },
    /// A unit passes a limit, or its import is refused.
    NotImported(&'a NotImported),
}

/// Imports the units of a stream into a builder, one at a time, and adds the symbols. A unit that can't be imported is left out and told.
pub fn read_units(input: impl Read, builder: &mut Builder, mut told: impl FnMut(Event<'_>)) -> Result<(), Error> {
    let mut blocks = Blocks { input, numbers: Vec::new(), parts: Vec::new(), count: 0 };
    blocks.expect_mark()?;
    loop {
        let kind = blocks.next()?;
        let (numbers, parts) = (&blocks.numbers[..], &blocks.parts[..blocks.count]);
        match (kind, numbers, parts) {
            (END, [], []) => return Ok(()),
            (COUNT, [count], []) => told(Event::Units(*count)),
            (UNIT, [unit, ordinal, fields, ranges @ ..], [name, main, supplementary, program]) => {
                let inputs = Inputs { main, supplementary, program, ..Inputs::default() };
                match builder.import(Unit { inputs, ordinal: *ordinal, fields: *fields as usize }) {
                    Ok(_) => told(Event::Imported { unit: *unit }),
                    Err(refusal) => {
                        let reason = format!("refused {}, {refusal}", refusal.number());
                        leave_out(builder, *unit, name, reason, ranges, &mut told);
                    }
                }
            }
            (SKIPPED, [unit, ranges @ ..], [name, reason]) => {
                leave_out(builder, *unit, name, String::from_utf8_lossy(reason).into(), ranges, &mut told);
            }
            (SYMBOLS, [], [list]) => builder.add_symbols(list),
            _ => return Err(Error::Stream("a block of no known kind")),
        }
    }
}

fn leave_out(builder: &mut Builder, unit: u64, name: &[u8], reason: String, ranges: &[u64], told: &mut impl FnMut(Event<'_>)) {
    let ranges: Vec<Range<u64>> = ranges.chunks_exact(2).map(|range| range[0]..range[1]).collect();
    let unit = NotImported { unit, name: String::from_utf8_lossy(name).into(), reason, ranges };
    told(Event::NotImported(&unit));
    builder.leave_out(unit);
}

/// The blocks of a stream, read into the same memory each time.
struct Blocks<R> {
    input: R,
    numbers: Vec<u64>,
    /// Of which the block has the first `count`.
    parts: Vec<Vec<u8>>,
    count: usize,
}

impl<R: Read> Blocks<R> {
    fn expect_mark(&mut self) -> Result<(), Error> {
        let mut mark = [0; MARK.len()];
        self.exactly(&mut mark)?;
        if mark == *MARK { Ok(()) } else { Err(Error::Stream("it begins otherwise")) }
    }

    /// Reads a block and gives its kind.
    fn next(&mut self) -> Result<u8, Error> {
        let mut head = [0; 9];
        self.exactly(&mut head)?;
        let [kind, a, b, c, d, e, f, g, h] = head;
        let (numbers, parts) = (u32::from_le_bytes([a, b, c, d]), u32::from_le_bytes([e, f, g, h]));
        if numbers > MOST || parts > MOST {
            return Err(Error::Stream("a block of too many parts"));
        }
        self.numbers.clear();
        for _ in 0..numbers {
            let number = self.number()?;
            self.numbers.push(number);
        }
        for place in 0..parts as usize {
            if place == self.parts.len() {
                self.parts.push(Vec::new());
            }
            let length = self.number()?;
            let part = &mut self.parts[place];
            part.clear();
            let read = self.input.by_ref().take(length).read_to_end(part)?;
            if read as u64 != length {
                return Err(cut());
            }
        }
        self.count = parts as usize;
        Ok(kind)
    }

    fn number(&mut self) -> Result<u64, Error> {
        let mut bytes = [0; 8];
        self.exactly(&mut bytes)?;
        Ok(u64::from_le_bytes(bytes))
    }

    fn exactly(&mut self, bytes: &mut [u8]) -> Result<(), Error> {
        self.input.read_exact(bytes).map_err(|error| if error.kind() == io::ErrorKind::UnexpectedEof { cut() } else { error.into() })
    }
}

fn cut() -> Error {
    Error::Stream("it breaks off")
}
