//! Files of cases and of answers, little-endian, one after the other. An output file is whole or not there.

use std::fs::{self, File};
use std::io::{self, BufReader, BufWriter, Read, Write};
use std::path::{Path, PathBuf};

use crate::case::{Answer, Case};

/// The switches of a case.
const INLINES: u8 = 1;
const CALL_SITES: u8 = 2;
const ALL_UNITS: u8 = 4;
/// The list section and the address table follow the inputs.
const SECTIONS: u8 = 8;

/// Reads values one after the other from a file.
pub struct Source {
    path: PathBuf,
    reader: BufReader<File>,
    /// Bytes that are still to come: a length above it is no length.
    left: u64,
}

impl Source {
    pub fn open(path: &Path) -> Result<Self, String> {
        let opened = File::open(path).and_then(|file| Ok((file.metadata()?, file)));
        let (metadata, file) = opened.map_err(|error| format!("{}: {error}", path.display()))?;
        if !metadata.is_file() {
            return Err(format!("{} is no regular file", path.display()));
        }
        Ok(Self { path: path.to_owned(), reader: BufReader::with_capacity(1 << 20, file), left: metadata.len() })
    }

    fn bytes(&mut self, length: u64) -> Result<Vec<u8>, String> {
        if length > self.left {
            return Err(format!("{}: cut off, {length} bytes were to come and {} are there", self.path.display(), self.left));
        }
        let mut bytes = vec![0; length as usize];
        self.reader.read_exact(&mut bytes).map_err(|error| format!("{}: {error}", self.path.display()))?;
        self.left -= length;
        Ok(bytes)
    }

    fn number(&mut self, size: u64) -> Result<u64, String> {
        Ok(self.bytes(size)?.iter().rev().fold(0, |value, &byte| value << 8 | u64::from(byte)))
    }

    pub fn case(&mut self) -> Result<Option<Case>, String> {
        if self.left == 0 {
            return Ok(None);
        }
        let lengths = [self.number(4)?, self.number(4)?, self.number(4)?];
        let ordinal = self.number(8)?;
        let flags = self.number(1)?;
        if flags > (INLINES | CALL_SITES | ALL_UNITS | SECTIONS).into() {
            return Err(format!("{}: no case has the flags {flags}", self.path.display()));
        }
        let has = |switch: u8| flags & u64::from(switch) != 0;
        let mut case = Case {
            ordinal,
            inlines: has(INLINES),
            call_sites: has(CALL_SITES),
            all: has(ALL_UNITS),
            first_file: self.number(4)? as u32,
            work: self.number(8)?,
            records: self.number(4)? as u32,
            files: self.number(4)? as u32,
            warnings: self.number(4)? as u32,
            main: self.bytes(lengths[0])?,
            supplementary: self.bytes(lengths[1])?,
            program: self.bytes(lengths[2])?,
            lists: Vec::new(),
            addresses: Vec::new(),
        };
        if has(SECTIONS) {
            let lengths = [self.number(4)?, self.number(4)?];
            (case.lists, case.addresses) = (self.bytes(lengths[0])?, self.bytes(lengths[1])?);
        }
        Ok(Some(case))
    }

    pub fn answer(&mut self) -> Result<Option<Answer>, String> {
        if self.left == 0 {
            return Ok(None);
        }
        let refusal = self.number(1)? as u8;
        let mut numbers = [0; 7];
        for number in &mut numbers {
            *number = self.number(8)?;
        }
        let [records, files, warnings, statistics @ ..] = numbers;
        if !matches!(refusal, 0..=18 | 21..=25) || refusal > 0 && numbers != [0; 7] {
            return Err(format!("{}: no answer has the refusal {refusal} and the numbers {numbers:?}", self.path.display()));
        }
        let (records, files, warnings) = (self.bytes(records)?, self.bytes(files)?, self.bytes(warnings)?);
        Ok(Some(Answer { refusal, records, files, warnings, statistics }))
    }
}

/// A file that is written beside its place and put there when it is whole.
pub struct Target {
    path: PathBuf,
    partial: PathBuf,
    writer: BufWriter<File>,
}

impl Target {
    pub fn create(path: &Path) -> Result<Self, String> {
        // A link or a device would be put aside by the new file.
        if fs::symlink_metadata(path).is_ok_and(|metadata| !metadata.is_file()) {
            return Err(format!("{} is there and no regular file", path.display()));
        }
        let mut partial = path.as_os_str().to_owned();
        partial.push(format!(".partial{}", std::process::id()));
        let partial = PathBuf::from(partial);
        let file = File::create(&partial).map_err(|error| format!("{}: {error}", partial.display()))?;
        Ok(Self { path: path.to_owned(), partial, writer: BufWriter::with_capacity(1 << 20, file) })
    }

    pub fn case(&mut self, case: &Case) -> Result<(), String> {
        let lengths = [&case.main, &case.supplementary, &case.program].map(|bytes| (bytes.len() as u32).to_le_bytes());
        let switch = |switch: u8, on: bool| if on { switch } else { 0 };
        let sections = !case.lists.is_empty() || !case.addresses.is_empty();
        let flags =
            switch(INLINES, case.inlines) | switch(CALL_SITES, case.call_sites) | switch(ALL_UNITS, case.all) | switch(SECTIONS, sections);
        let buffers = [case.records, case.files, case.warnings].map(u32::to_le_bytes);
        self.write(&[
            &lengths.concat(),
            &case.ordinal.to_le_bytes(),
            &[flags],
            &case.first_file.to_le_bytes(),
            &case.work.to_le_bytes(),
            &buffers.concat(),
            &case.main,
            &case.supplementary,
            &case.program,
        ])?;
        if sections {
            let lengths = [&case.lists, &case.addresses].map(|bytes| (bytes.len() as u32).to_le_bytes());
            self.write(&[&lengths.concat(), &case.lists, &case.addresses])?;
        }
        Ok(())
    }

    pub fn answer(&mut self, answer: &Answer) -> Result<(), String> {
        let buffers = [&answer.records, &answer.files, &answer.warnings];
        let lengths = buffers.map(|bytes| (bytes.len() as u64).to_le_bytes());
        let statistics = answer.statistics.map(u64::to_le_bytes);
        self.write(&[&[answer.refusal], &lengths.concat(), &statistics.concat(), buffers[0], buffers[1], buffers[2]])
    }

    pub fn write(&mut self, parts: &[&[u8]]) -> Result<(), String> {
        parts.iter().try_for_each(|part| self.writer.write_all(part)).map_err(|error| self.told(&error))
    }

    fn told(&self, error: &io::Error) -> String {
        format!("{}: {error}", self.partial.display())
    }

    pub fn finish(mut self) -> Result<bool, String> {
        self.writer.flush().map_err(|error| self.told(&error))?;
        fs::rename(&self.partial, &self.path).map_err(|error| format!("{}: {error}", self.path.display()))?;
        Ok(true)
    }
}

impl Drop for Target {
    fn drop(&mut self) {
        // Gone already where the file was finished.
        let _ = fs::remove_file(&self.partial);
    }
}
