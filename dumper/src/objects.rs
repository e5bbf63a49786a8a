//! The units of an object file and of its supplementary one, one after the other, and how many were dumped.

use std::collections::BTreeMap;
use std::path::Path;

use crate::about::{about, About};
use crate::decoder;
use crate::dump::{Dump, Input};
use crate::elf::{self, DebugFile};
use crate::output::fault;
use crate::symbols::Symbols;
use crate::{Asked, Stop, NO_DEBUG_DATA};

/// Units and skipped units of one or more files, or files and skipped files.
#[derive(Default)]
pub struct Summary {
    pub dumped: usize,
    pub skipped: BTreeMap<String, usize>,
    unapplied: usize,
    /// Those of the last file.
    pub symbols: Symbols,
}

impl Summary {
    pub fn print(&self, what: &str) {
        let skipped: usize = self.skipped.values().sum();
        println!("{} {what} dumped, {skipped} skipped", self.dumped);
        for (reason, count) in &self.skipped {
            println!("  {count} skipped: {reason}");
        }
        if self.unapplied != 0 {
            println!(
                "  {} relocations that are not absolute left alone",
                self.unapplied
            );
        }
    }
}

/// Hands the units of a file to `take`.
pub fn with_units(
    object: &Path,
    asked: Asked,
    summary: &mut Summary,
    take: impl FnOnce(&Input, &mut Summary) -> Result<(), Stop>,
) -> Result<(), Stop> {
    let mut file = elf::read(object).map_err(|what| fault(object, what))?;
    let second = read_supplementary(object, &file, asked.supplementary)?;
    summary.unapplied += file.unapplied;
    summary.symbols = std::mem::take(&mut file.symbols);
    let dwarf = file.dwarf(second.as_ref());
    let mut input = Input::new(object, &dwarf, &file.text)?;
    (input.programs, input.lists) = (asked.programs, asked.lists);
    if input.main.len() == 0 {
        return Err(Stop {
            message: fault(object, "has no debug data: no unit of DWARF"),
            status: NO_DEBUG_DATA,
        });
    }
    take(&input, summary)
}

/// Hands every unit of a file that has sheets to `keep`.
pub fn each_unit(
    object: &Path,
    asked: Asked,
    summary: &mut Summary,
    mut keep: impl FnMut(About, Dump) -> Result<(), String>,
) -> Result<(), Stop> {
    with_units(object, asked, summary, |input, summary| {
        for number in 0..input.main.len() {
            let mut about = about(input, number);
            if asked.timed {
                about.decoding = decoder::nanoseconds(input, number);
            }
            match input.dump(number) {
                Ok(dump) => {
                    summary.dumped += 1;
                    keep(about, dump)?;
                }
                Err(reason) => {
                    eprintln!(
                        "{}: unit {number} at {:#x} ({}) skipped: {reason}",
                        object.display(),
                        about.offset,
                        about.name
                    );
                    *summary.skipped.entry(reason).or_default() += 1;
                }
            }
        }
        Ok(())
    })
}

/// The supplementary file that was given, else the one that the object names, if it is there.
pub fn read_supplementary(
    object: &Path,
    file: &DebugFile,
    given: Option<&Path>,
) -> Result<Option<DebugFile>, String> {
    let beside = file.supplementary.as_ref().map(|(path, identity)| {
        let folder = object.parent().unwrap_or(Path::new(""));
        (folder.join(path), identity)
    });
    let path = match (given, &beside) {
        (Some(path), _) => path,
        (None, Some((path, _))) if path.exists() => path,
        (None, Some((path, _))) => {
            eprintln!(
                "{}: no supplementary file at {}",
                object.display(),
                path.display()
            );
            return Ok(None);
        }
        (None, None) => return Ok(None),
    };
    let second = elf::read(path).map_err(|what| fault(path, what))?;
    if second.endian != file.endian {
        return Err(fault(path, "has another byte order than the object"));
    }
    match &beside {
        Some((_, identity)) if !second.identities.contains(identity) => Err(fault(
            path,
            "is not the supplementary file that the object names",
        )),
        Some(_) => Ok(Some(second)),
        None => Err(fault(object, "names no supplementary file")),
    }
}
