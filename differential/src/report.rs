//! The first difference as files: the inputs, and both answers.

use std::fs;
use std::path::Path;

use oracle::{Answer, Case};

use crate::import::{BEHIND, Got};

pub fn put(folder: &Path, name: &str, bytes: &[u8]) -> Result<(), String> {
    fs::write(folder.join(name), bytes).map_err(|error| format!("{name}: {error}"))
}

pub fn write_inputs(folder: &Path, case: &Case) -> Result<(), String> {
    fs::create_dir_all(folder).map_err(|error| format!("{}: {error}", folder.display()))?;
    put(folder, "unit.main", &case.main)?;
    put(folder, "unit.sup", &case.supplementary)?;
    put(folder, "unit.line", &case.program)?;
    put(folder, "unit.lists", &case.lists)?;
    put(folder, "unit.addresses", &case.addresses)
}

pub fn write_difference(folder: &Path, case: &Case, expected: &Answer, got: &Got) -> Result<(), String> {
    write_inputs(folder, case)?;
    for (name, bytes, buffer) in [
        ("records", &expected.records, &got.buffers[0]),
        ("files", &expected.files, &got.buffers[1]),
        ("warnings", &expected.warnings, &got.buffers[2]),
    ] {
        put(folder, &format!("{name}.expected"), bytes)?;
        put(folder, &format!("{name}.got"), &buffer[..buffer.len() - BEHIND])?;
    }
    let asked = format!(
        "all units {}, ordinal {}, inlines {}, call sites {}, first file {}, work {}, records {}, files {}, warnings {}\n\
         expected: refusal {}, statistics {:?}\n\
         got: refusal {}, lengths {:?}, statistics {:?}\n",
        case.all,
        case.ordinal,
        case.inlines,
        case.call_sites,
        case.first_file,
        case.work,
        case.records,
        case.files,
        case.warnings,
        expected.refusal,
        expected.statistics,
        got.refusal,
        got.lengths,
        got.statistics
    );
    put(folder, "answers", asked.as_bytes())
}
