//! Output that appears whole or not at all: written beside its place, then renamed.

use std::fs::{self, File};
use std::io::{BufWriter, Write};
use std::path::{Path, PathBuf};

/// A file or folder that is still being written. It is removed unless `finish` is called.
pub struct Pending {
    place: PathBuf,
    draft: PathBuf,
}

impl Pending {
    pub fn new(place: &Path) -> Result<Self, String> {
        let name = place
            .file_name()
            .ok_or_else(|| fault(place, "no name for an output"))?;
        let mut draft = name.to_os_string();
        draft.push(format!(".{}.tmp", std::process::id()));
        Ok(Pending {
            place: place.to_path_buf(),
            draft: place.with_file_name(draft),
        })
    }

    pub fn file(&self) -> Result<BufWriter<File>, String> {
        let file = File::create(&self.draft).map_err(|error| fault(&self.place, error))?;
        Ok(BufWriter::new(file))
    }

    /// Makes the folder; a folder that is there already must be empty.
    pub fn folder(&self) -> Result<&Path, String> {
        let entries = fs::read_dir(&self.place);
        if self.place.exists() && !entries.is_ok_and(|mut entries| entries.next().is_none()) {
            return Err(fault(
                &self.place,
                "is there already and is no empty folder",
            ));
        }
        fs::create_dir(&self.draft).map_err(|error| fault(&self.place, error))?;
        Ok(&self.draft)
    }

    pub fn finish(self) -> Result<(), String> {
        fs::rename(&self.draft, &self.place).map_err(|error| fault(&self.place, error))
    }
}

impl Drop for Pending {
    fn drop(&mut self) {
        // After `finish` there is nothing left by this name.
        let _ = fs::remove_file(&self.draft);
        let _ = fs::remove_dir_all(&self.draft);
    }
}

pub fn write(output: &mut impl Write, place: &Path, bytes: &[u8]) -> Result<(), String> {
    output.write_all(bytes).map_err(|error| fault(place, error))
}

pub fn flush(mut output: BufWriter<File>, place: &Path) -> Result<(), String> {
    output.flush().map_err(|error| fault(place, error))
}

pub fn fault(path: &Path, what: impl std::fmt::Display) -> String {
    format!("{}: {what}", path.display())
}
