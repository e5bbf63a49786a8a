//! The units of an object that hold code, one after the other, for a program that imports them as
//! they come; units that have no sheets, with the reason; the function symbols.
//!
//! A stream is the mark, then blocks, the last of kind END. A block is its kind (1 byte), how many
//! numbers and how many parts it has (4 bytes each), the numbers (8 bytes each) and the parts, each
//! its length (8 bytes) and its bytes. All numbers are little-endian.

use std::io::{self, BufWriter, Read, Write};
use std::ops::Range;
use std::path::{Path, PathBuf};

use crate::about::printable;
use crate::coverage::Coverage;
use crate::dump::{Dump, Input};
use crate::elf;
use crate::fields;
use crate::objects::read_supplementary;
use crate::output::fault;
use crate::parts::{self, Part};
use crate::{separate, Stop, FAULT};

const MARK: &[u8] = b"pezgok-units-1\n";
const END: u8 = 0;
/// Numbers: how many units are to come.
const COUNT: u8 = 1;
/// A unit or a part of one. Numbers: unit, ordinal, fields of both sheets, then the ranges. Parts:
/// name, main sheet, supplementary sheet, line program.
const UNIT: u8 = 2;
/// Numbers: unit, then the ranges. Parts: name, why it has no sheets.
const SKIPPED: u8 = 3;
/// Parts: the list.
const SYMBOLS: u8 = 4;

const USAGE: &str = "\
usage: dumper stream OBJECT [--supplementary FILE] [--addresses] [--whole | --most FIELDS]
           the units that hold code, to standard output; with --addresses, those that can hold
           one of the addresses on standard input, 8 bytes each; with --whole, all their entries;
           with --most, in parts of so many fields";

#[derive(Default)]
struct Options {
    supplementary: Option<PathBuf>,
    addresses: bool,
    whole: bool,
    most: Option<usize>,
}

pub fn run(mut arguments: impl Iterator<Item = PathBuf>) -> Result<(), Stop> {
    let mut options = Options::default();
    let mut object = None;
    while let Some(argument) = arguments.next() {
        match argument.to_str() {
            Some("--supplementary") => {
                options.supplementary = Some(arguments.next().ok_or(USAGE)?);
            }
            Some("--addresses") => options.addresses = true,
            Some("--whole") => options.whole = true,
            Some("--most") => {
                let most = arguments.next().ok_or(USAGE)?;
                options.most = Some(
                    most.to_str()
                        .and_then(|most| most.parse().ok())
                        .ok_or(USAGE)?,
                );
            }
            Some(other) if other.starts_with("--") => {
                return Err(format!("{other}?\n{USAGE}").into())
            }
            _ if object.is_none() => object = Some(argument),
            _ => return Err(USAGE.into()),
        }
    }
    let object = object.ok_or(USAGE)?;
    let asked = if options.addresses {
        Some(read_addresses().map_err(|error| error.to_string())?)
    } else {
        None
    };
    let mut out = Blocks(BufWriter::with_capacity(1 << 20, io::stdout().lock()));
    stream(&object, &options, asked.as_deref(), &mut out)
}

/// The addresses that are asked, ascending.
fn read_addresses() -> io::Result<Vec<u64>> {
    let mut bytes = Vec::new();
    io::stdin().lock().read_to_end(&mut bytes)?;
    let number = |part: &[u8]| u64::from_le_bytes(part.try_into().unwrap_or_default());
    let mut addresses: Vec<u64> = bytes.chunks_exact(8).map(number).collect();
    addresses.sort_unstable();
    Ok(addresses)
}

fn stream(
    object: &Path,
    options: &Options,
    asked: Option<&[u64]>,
    out: &mut Blocks<impl Write>,
) -> Result<(), Stop> {
    let mut file = elf::read(object).map_err(|what| fault(object, what))?;
    let mut place = object.to_path_buf();
    let mut symbols = std::mem::take(&mut file.symbols.bytes);
    if let Some(separate) = separate::find(object) {
        let text = file.text;
        file = elf::read(&separate).map_err(|what| fault(&separate, what))?;
        file.text = text;
        // Of two symbols at one place the first is taken, and the debug file has more of them.
        symbols.splice(..0, std::mem::take(&mut file.symbols.bytes));
        place = separate;
    }
    let second = read_supplementary(&place, &file, options.supplementary.as_deref())?;
    let dwarf = file.dwarf(second.as_ref());
    let input = Input::new(&place, &dwarf, &file.text)?;
    let wanted: Vec<(usize, Coverage)> = (0..input.main.len())
        .map(|number| (number, Coverage::of(&input.main, number)))
        .filter(|(_, coverage)| coverage.may_hold(asked))
        .collect();
    out.0.write_all(MARK).map_err(stopped)?;
    out.block(COUNT, &[wanted.len() as u64], &[])?;
    // Each unit by itself. An import of several units in one call would be fed from here, with a
    // block of several units' sheets in one main sheet.
    for (number, coverage) in wanted {
        let name = match input.main.root(number) {
            Ok(unit) => printable(unit.name.map_or(&[][..], |name| name.slice())),
            Err(_) => "-".into(),
        };
        let unit = Unit {
            input: &input,
            number,
            name: name.as_bytes(),
            ranges: &coverage.ranges,
            most: options.most.unwrap_or(usize::MAX),
        };
        if options.whole {
            unit.write(input.dump(number), unit.ranges, out)?;
        } else {
            unit.write_lean(out)?;
        }
    }
    out.block(SYMBOLS, &[], &[&symbols])?;
    out.block(END, &[], &[])?;
    out.0.flush().map_err(stopped)
}

/// A unit of the stream.
struct Unit<'a, 'b> {
    input: &'b Input<'a>,
    number: usize,
    name: &'b [u8],
    ranges: &'b [(u64, u64)],
    most: usize,
}

impl Unit<'_, '_> {
    /// Writes the sheets, or why there are none of the code in these ranges.
    fn write(
        &self,
        dump: Result<Dump, String>,
        ranges: &[(u64, u64)],
        out: &mut Blocks<impl Write>,
    ) -> Result<(), Stop> {
        let ranges = ranges.iter().flat_map(|range| [range.0, range.1]);
        let mut numbers = vec![self.number as u64];
        match dump {
            Ok(dump) => {
                let fields = dump.main.fields + dump.supplementary.fields;
                numbers.extend([dump.ordinal as u64, fields as u64]);
                numbers.extend(ranges);
                let sheets = [&dump.main.bytes, &dump.supplementary.bytes, &dump.program];
                let [main, second, program] = sheets.map(|bytes| bytes.as_slice());
                out.block(UNIT, &numbers, &[self.name, main, second, program])
            }
            Err(reason) => {
                numbers.extend(ranges);
                out.block(SKIPPED, &numbers, &[self.name, reason.as_bytes()])
            }
        }
    }

    /// Writes lean sheets of the unit, in parts where it passes a limit.
    fn write_lean(&self, out: &mut Blocks<impl Write>) -> Result<(), Stop> {
        match self.input.main.unit(self.number) {
            Ok(decoded) => self.write_parts(&parts::subprograms(decoded), true, out),
            Err(reason) => self.write(Err(reason), self.ranges, out),
        }
    }

    fn write_parts(
        &self,
        subprograms: &[Range<usize>],
        all: bool,
        out: &mut Blocks<impl Write>,
    ) -> Result<(), Stop> {
        let source = &self.input.main;
        let decoded = source.unit(self.number)?;
        let part = Part::new(source, decoded, subprograms, all);
        let dump = if subprograms.len() > 1 && part.least_fields(decoded) > fields::FIELD_LIMIT {
            Err(fields::SIZE_LIMITS[0].into())
        } else {
            self.input.dump_part(self.number, Some(&part))
        };
        let passed = match &dump {
            Ok(dump) => dump.main.fields > self.most,
            Err(reason) => fields::SIZE_LIMITS.contains(&reason.as_str()),
        };
        if passed && subprograms.len() > 1 {
            let (first, second) = subprograms.split_at(subprograms.len() / 2);
            self.write_parts(first, false, out)?;
            return self.write_parts(second, false, out);
        }
        let stated = all && !self.ranges.is_empty();
        self.write(dump, if stated { self.ranges } else { part.ranges() }, out)
    }
}

struct Blocks<W: Write>(BufWriter<W>);

impl<W: Write> Blocks<W> {
    fn block(&mut self, kind: u8, numbers: &[u64], parts: &[&[u8]]) -> Result<(), Stop> {
        let mut head = vec![kind];
        head.extend((numbers.len() as u32).to_le_bytes());
        head.extend((parts.len() as u32).to_le_bytes());
        head.extend(numbers.iter().flat_map(|number| number.to_le_bytes()));
        self.0.write_all(&head).map_err(stopped)?;
        for part in parts {
            let length = (part.len() as u64).to_le_bytes();
            self.0.write_all(&length).map_err(stopped)?;
            self.0.write_all(part).map_err(stopped)?;
        }
        Ok(())
    }
}

fn stopped(error: io::Error) -> Stop {
    Stop {
        message: format!("standard output: {error}"),
        status: FAULT,
    }
}
