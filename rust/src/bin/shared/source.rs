//! The table of an object, which the dumper decodes, or of an index.

use std::ffi::OsString;
use std::fs::{self, File};
use std::io::{BufReader, Read, Write};
use std::path::{Path, PathBuf};
use std::process::{Command, Stdio};
use std::{env, io};

use pezgok::{Builder, Error, Event, Table, read_units};

use crate::progress::Progress;

/// Why there is no table. The dumper has said it itself where there are no words.
pub struct Stop(pub Option<String>);

/// Whether a file is an index, by its first bytes.
pub fn is_index(path: &Path) -> io::Result<bool> {
    let mut head = Vec::new();
    File::open(path)?.take(64).read_to_end(&mut head)?;
    Ok(Table::is_saved(&head))
}

/// The table of an index.
pub fn of_index(path: &Path, progress: &Progress) -> Result<Table, Stop> {
    progress.stage("reading the index", 0);
    let bytes = fs::read(path).map_err(|error| stop(path, &error.into()))?;
    Table::from_bytes(&bytes).map_err(|error| stop(path, &error))
}

/// The table of an object: of all its units, or of those that can hold one of some addresses.
pub fn of_object(object: &Path, given: &[OsString], asked: Option<&[u64]>, progress: &Progress, program: &str) -> Result<Table, Stop> {
    progress.stage("reading the object", 0);
    let dumper = dumper();
    let mut command = Command::new(&dumper);
    command.arg("stream").arg(object).args(given).stdin(Stdio::null()).stdout(Stdio::piped());
    if asked.is_some() {
        command.arg("--addresses").stdin(Stdio::piped());
    }
    let fault = |error: io::Error| stop(&dumper, &error.into());
    let mut child = command.spawn().map_err(fault)?;
    if let (Some(mut input), Some(asked)) = (child.stdin.take(), asked) {
        let bytes: Vec<u8> = asked.iter().flat_map(|address| address.to_le_bytes()).collect();
        // Where the dumper ends before it has read them it says why.
        let _ = input.write_all(&bytes);
    }
    let mut builder = Builder::new();
    let mut last = None;
    let read = child.stdout.take().map(|output| {
        read_units(BufReader::with_capacity(1 << 20, output), &mut builder, |event| match event {
            Event::Units(count) => progress.stage("units imported", count),
            Event::Imported { unit } => {
                // A large unit comes in parts.
                if last.replace(unit) != Some(unit) {
                    progress.steps(1);
                }
            }
            Event::NotImported(unit) => {
                if last.replace(unit.unit) != Some(unit.unit) {
                    progress.steps(1);
                }
                eprintln!("{program}: unit {} ({}) is not imported: {}", unit.unit, unit.name, unit.reason);
            }
        })
    });
    if !child.wait().map_err(fault)?.success() {
        return Err(Stop(None));
    }
    if let Some(Err(error)) = read {
        return Err(stop(object, &error));
    }
    progress.stage("joining symbols and making the index", 0);
    builder.finish().map_err(|error| stop(object, &error))
}

fn stop(path: &Path, error: &Error) -> Stop {
    Stop(Some(format!("{}: {error}", path.display())))
}

/// PEZGOK_DUMPER, or the one that stands where the repository's own builds are.
fn dumper() -> PathBuf {
    if let Some(path) = env::var_os("PEZGOK_DUMPER") {
        return path.into();
    }
    let beside = env::current_exe().ok().and_then(|program| Some(program.ancestors().nth(3)?.join("dumper/release/dumper")));
    beside.unwrap_or_else(|| "dumper".into())
}
