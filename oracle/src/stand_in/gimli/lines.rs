//! Line programs: headers, files and rows.

use std::marker::PhantomData;
use std::num::NonZeroU64;
use std::rc::Rc;

use super::{AttributeValue, DebugLineOffset, Encoding, Error, Reader, Result, UnitData};
use crate::machine::{LineEncoding, Program};

/// The line section of split units, which no input has.
pub struct DebugLine<R>(pub(super) PhantomData<R>);

pub trait Section: Sized {
    fn reader(&self) -> &Self {
        self
    }
}

impl<R> Section for DebugLine<R> {}

impl<R: Reader> DebugLine<R> {
    answers! { is_empty(&self) -> bool = true; }

    pub fn program(&self, _: DebugLineOffset<usize>, _: u8, _: Option<R>, _: Option<R>) -> Result<IncompleteLineProgram<R>> {
        Err(Error::Value)
    }
}

#[derive(Clone)]
pub struct LineProgramHeader<R: Reader> {
    pub offset: usize,
    pub length: usize,
    pub encoding: Encoding,
    pub opcode_base: u8,
    pub opcode_lengths: R,
    pub program: R,
    pub directories: Vec<AttributeValue<R>>,
    pub file_zero: Option<FileEntry<R>>,
    pub files: Vec<FileEntry<R>>,
}

impl<R: Reader> LineProgramHeader<R> {
    answers! {
        offset(&self) -> DebugLineOffset<usize> = DebugLineOffset(self.offset);
        header_length(&self) -> usize = self.length;
        encoding(&self) -> Encoding = self.encoding;
        version(&self) -> u16 = self.encoding.version;
        opcode_base(&self) -> u8 = self.opcode_base;
        standard_opcode_lengths(&self) -> &R = &self.opcode_lengths;
        raw_program_buf(&self) -> R = self.program.clone();
        file_names(&self) -> &[FileEntry<R>] = &self.files;
    }

    /// Has something done with the program as the row machine takes it.
    pub fn with_program<T>(&self, encoding: LineEncoding, run: impl FnOnce(Program<'_>) -> T) -> T {
        let [lengths, bytes] = [&self.opcode_lengths, &self.program].map(|part| part.to_slice().expect("a part of an input"));
        run(Program { encoding, base: self.opcode_base, lengths: &lengths, bytes: &bytes })
    }

    /// Directories and files number from 0 in version 5, before that from 1.
    fn place(&self, number: u64) -> Option<usize> {
        usize::try_from(number).ok()?.checked_sub(usize::from(self.version() <= 4))
    }

    pub fn file(&self, number: u64) -> Option<&FileEntry<R>> {
        match self.place(number) {
            Some(place) => self.files.get(place),
            None => self.file_zero.as_ref(),
        }
    }
}

#[derive(Clone)]
pub struct FileEntry<R: Reader> {
    pub directory: u64,
    pub path: AttributeValue<R>,
}

impl<R: Reader> FileEntry<R> {
    answers! {
        path_name(&self) -> AttributeValue<R> = self.path.clone();
        directory_index(&self) -> u64 = self.directory;
    }

    /// The Rust does not use the answer for directory 0 before version 5.
    pub fn directory(&self, header: &LineProgramHeader<R>) -> Option<AttributeValue<R>> {
        header.directories.get(header.place(self.directory)?).cloned()
    }
}

/// A line program, and the place among its rows.
#[derive(Clone)]
pub struct IncompleteLineProgram<R: Reader> {
    pub(super) unit: Rc<UnitData<R>>,
    pub(super) next: usize,
}

impl<R: Reader> IncompleteLineProgram<R> {
    answers! { header(&self) -> &LineProgramHeader<R> = self.unit.lines.as_ref().expect("a line program has a header"); }

    pub fn rows(self) -> Self {
        self
    }

    pub fn next_row(&mut self) -> Result<Option<(&LineProgramHeader<R>, &LineRow)>> {
        self.next += 1;
        match self.unit.rows().get(self.next - 1) {
            Some(LineRow { kind: RowKind::Failed, .. }) => Err(Error::Value),
            Some(LineRow { kind: RowKind::Fault(number), .. }) => Err(Error::Program(*number)),
            row => Ok(row.map(|row| (self.header(), row))),
        }
    }
}

#[derive(Clone, Copy, Debug, Eq, PartialEq)]
pub enum RowKind {
    Plain,
    End,
    Failed,
    /// No row: the program is refused here.
    Fault(u8),
}

#[derive(Eq, PartialEq)]
pub struct LineRow {
    pub address: u64,
    pub file: u64,
    pub line: u64,
    pub column: u16,
    pub kind: RowKind,
}

impl LineRow {
    answers! {
        end_sequence(&self) -> bool = self.kind == RowKind::End;
        address(&self) -> u64 = self.address;
        file_index(&self) -> u64 = self.file;
        line(&self) -> Option<NonZeroU64> = NonZeroU64::new(self.line);
        column(&self) -> u16 = self.column;
    }
}
