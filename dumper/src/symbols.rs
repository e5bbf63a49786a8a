//! The function symbols of an ELF file, as the list of fields 50 that is joined to its records.

use std::collections::{BTreeMap, HashSet};

use object::{File, Object, ObjectSection, ObjectSymbol, Symbol, SymbolKind};

use crate::elf::Layout;

const SYMBOL: u8 = 0x50;
/// A payload has 65,535 bytes at most, 16 of them start and size.
const NAME_LIMIT: usize = 65_519;
/// The Rust takes no longer function.
const SIZE_LIMIT: u64 = u32::MAX as u64;

#[derive(Default)]
pub struct Symbols {
    /// The fields, by ascending address; symbols of one address in the order of the tables.
    pub bytes: Vec<u8>,
    pub count: usize,
    /// How many were left out, by reason.
    pub left_out: BTreeMap<&'static str, usize>,
}

impl Symbols {
    /// The defined symbols of type FUNC that have a name, of .symtab and then of .dynsym.
    pub fn read(file: &File, layout: &Layout) -> Result<Self, String> {
        let mut symbols = Symbols::default();
        let mut found = Vec::new();
        let mut known = HashSet::new();
        for symbol in file.symbols().chain(file.dynamic_symbols()) {
            let name = symbol.name_bytes().unwrap_or_default();
            if symbol.kind() != SymbolKind::Text || !symbol.is_definition() || name.is_empty() {
                continue;
            }
            match place(file, &symbol, layout)? {
                Ok(start) if name.len() <= NAME_LIMIT => {
                    // Most of .dynsym stands in .symtab too.
                    if known.insert((start, symbol.size(), name.to_vec())) {
                        found.push((start, symbol.size(), name.to_vec()));
                    }
                }
                Ok(_) => symbols.leave_out("a name of more than 65,519 bytes"),
                Err(reason) => symbols.leave_out(reason),
            }
        }
        found.sort_by_key(|(start, _, _)| *start);
        symbols.count = found.len();
        for (start, size, name) in found {
            symbols.field(start, size, &name);
        }
        Ok(symbols)
    }

    fn leave_out(&mut self, reason: &'static str) {
        *self.left_out.entry(reason).or_default() += 1;
    }

    fn field(&mut self, start: u64, size: u64, name: &[u8]) {
        let length = (16 + name.len()) as u16;
        self.bytes.push(SYMBOL);
        self.bytes.extend(length.to_le_bytes());
        self.bytes.extend(start.to_le_bytes());
        self.bytes.extend(size.to_le_bytes());
        self.bytes.extend(name);
    }

    pub fn print(&self) {
        println!("{} function symbols", self.count);
        for (reason, count) in &self.left_out {
            println!("  {count} left out: {reason}");
        }
    }
}

/// Where a symbol lies, or why the Rust would not take it.
fn place(
    file: &File,
    symbol: &Symbol,
    layout: &Layout,
) -> Result<Result<u64, &'static str>, String> {
    let mut start = symbol.address();
    if layout.relocatable {
        let Some(index) = symbol.section_index() else {
            return Ok(Err("in no section"));
        };
        let section = file.section_by_index(index);
        let section = section.map_err(|error| error.to_string())?;
        if section.size() == 0 {
            return Ok(Err("in an empty section"));
        }
        let Some(moved) = layout.base(&section)?.checked_add(start) else {
            return Ok(Err("past 2^64 - 1"));
        };
        start = moved;
    }
    let Some(end) = start.checked_add(symbol.size()) else {
        return Ok(Err("ending past 2^64 - 1"));
    };
    if symbol.size() > SIZE_LIMIT {
        return Ok(Err("of 4 GiB or more"));
    }
    let inside = |&(low, high): &(u64, u64)| low <= start && end <= high;
    if layout.text.iter().any(inside) {
        Ok(Ok(start))
    } else {
        Ok(Err("outside all executable sections"))
    }
}
