//! A table as the bytes of a file, and back.
//!
//! The file is a mark (8 bytes), a version (4), a checksum of all behind it (8), the lengths and places of the parts (8 each), then the parts: records of
//! functions apart, records of those that overlap, files, units that are not imported. All numbers are little-endian.

use std::ops::Range;

use crate::error::Error;
use crate::layers::Layer;
use crate::table::{NotImported, Table};

const MARK: &[u8; 8] = b"pezgokIX";
const VERSION: u32 = 1;
const SUM_AT: usize = 12;
const NUMBERS_AT: usize = 20;
/// Of both layers the length and the place from which functions are known by symbol; the lengths of the files and of the units.
const NUMBERS: usize = 6;
const PARTS_AT: usize = NUMBERS_AT + 8 * NUMBERS;

impl Table {
    /// Whether bytes begin as a saved table does.
    pub fn is_saved(bytes: &[u8]) -> bool {
        bytes.starts_with(MARK)
    }

    /// The bytes of a saved table.
    pub fn to_bytes(&self) -> Vec<u8> {
        let units = write_units(&self.not_imported);
        let [apart, others] = &self.layers;
        let numbers = [apart.records.len(), apart.by_symbol, others.records.len(), others.by_symbol, self.files.len(), units.len()];
        let mut bytes = Vec::with_capacity(PARTS_AT + numbers[0] + numbers[2] + numbers[4] + numbers[5]);
        bytes.extend_from_slice(MARK);
        bytes.extend(VERSION.to_le_bytes());
        bytes.extend([0; NUMBERS_AT - SUM_AT]);
        bytes.extend(numbers.iter().flat_map(|&number| (number as u64).to_le_bytes()));
        for part in [&apart.records, &others.records, &self.files, &units] {
            bytes.extend_from_slice(part);
        }
        let sum = checksum(&bytes[NUMBERS_AT..]);
        bytes[SUM_AT..NUMBERS_AT].copy_from_slice(&sum.to_le_bytes());
        bytes
    }

    /// The table of saved bytes. Refused are bytes that are none, of another version or damaged: by lengths and checksum, the records by the proved
    /// check of their form too.
    pub fn from_bytes(bytes: &[u8]) -> Result<Self, Error> {
        if !Self::is_saved(bytes) {
            return Err(Error::Foreign);
        }
        let mut head = Reader(bytes.get(MARK.len()..).unwrap_or(&[]));
        let cut = Error::Damaged("it is cut off");
        let Some(version) = head.take(4) else { return Err(cut) };
        let version = u32::from_le_bytes(version.try_into().unwrap_or_default());
        if version != VERSION {
            return Err(Error::Version(version));
        }
        let (Some(sum), body) = (head.number(), head) else { return Err(cut) };
        let mut body = body;
        let whole = body.0;
        let mut numbers = [0; NUMBERS];
        for number in &mut numbers {
            let Some(value) = body.number().and_then(|value| usize::try_from(value).ok()) else { return Err(cut) };
            *number = value;
        }
        let [apart, apart_border, others, others_border, files, units] = numbers;
        let (Some(apart), Some(others), Some(files), Some(units)) =
            (body.take(apart), body.take(others), body.take(files), body.take(units))
        else {
            return Err(cut);
        };
        if !body.0.is_empty() {
            return Err(Error::Damaged("bytes follow its end"));
        }
        if checksum(whole) != sum {
            return Err(Error::Damaged("its checksum is another"));
        }
        let Some(not_imported) = read_units(units) else { return Err(Error::Damaged("its list of units that are not imported")) };
        let layer =
            |records: &[u8], border| Layer::new(records.to_vec(), border).map_err(|_| Error::Damaged("its records are no records tray"));
        let layers = [layer(apart, apart_border)?, layer(others, others_border)?];
        Self::with_layers(layers, files.to_vec(), not_imported)
    }
}

/// A checksum against damage, not against intent: each word of eight bytes changes all that follows.
fn checksum(bytes: &[u8]) -> u64 {
    const START: u64 = 0xcbf2_9ce4_8422_2325;
    const FACTOR: u64 = 0x9e37_79b9_7f4a_7c15;
    let add = |sum: u64, word: u64| (sum ^ word).wrapping_mul(FACTOR).rotate_left(29);
    let (words, rest) = bytes.split_at(bytes.len() / 8 * 8);
    let sum = words.chunks_exact(8).fold(START, |sum, word| add(sum, u64::from_le_bytes(word.try_into().unwrap_or_default())));
    let mut last = [0; 8];
    last[..rest.len()].copy_from_slice(rest);
    add(add(sum, u64::from_le_bytes(last)), bytes.len() as u64)
}

fn write_units(units: &[NotImported]) -> Vec<u8> {
    let mut bytes = Vec::new();
    let number = |bytes: &mut Vec<u8>, value: u64| bytes.extend(value.to_le_bytes());
    number(&mut bytes, units.len() as u64);
    for unit in units {
        number(&mut bytes, unit.unit);
        for text in [&unit.name, &unit.reason] {
            number(&mut bytes, text.len() as u64);
            bytes.extend_from_slice(text.as_bytes());
        }
        number(&mut bytes, unit.ranges.len() as u64);
        for range in &unit.ranges {
            number(&mut bytes, range.start);
            number(&mut bytes, range.end);
        }
    }
    bytes
}

fn read_units(bytes: &[u8]) -> Option<Vec<NotImported>> {
    let mut reader = Reader(bytes);
    let count = reader.number()?;
    let mut units = Vec::new();
    for _ in 0..count {
        let unit = reader.number()?;
        let (name, reason) = (reader.text()?, reader.text()?);
        let count = reader.number()?;
        let mut ranges: Vec<Range<u64>> = Vec::new();
        for _ in 0..count {
            ranges.push(reader.number()?..reader.number()?);
        }
        units.push(NotImported { unit, name, reason, ranges });
    }
    reader.0.is_empty().then_some(units)
}

/// What is left to read.
struct Reader<'a>(&'a [u8]);

impl<'a> Reader<'a> {
    fn take(&mut self, length: usize) -> Option<&'a [u8]> {
        let (part, rest) = self.0.split_at_checked(length)?;
        self.0 = rest;
        Some(part)
    }

    fn number(&mut self) -> Option<u64> {
        Some(u64::from_le_bytes(self.take(8)?.try_into().ok()?))
    }

    fn text(&mut self) -> Option<String> {
        let length = usize::try_from(self.number()?).ok()?;
        String::from_utf8(self.take(length)?.to_vec()).ok()
    }
}
