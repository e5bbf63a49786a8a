//! What is running at an address, as frames: the innermost call first.

use std::borrow::Cow;
use std::fmt;

use crate::fields::Field;
use crate::look;
use crate::table::Table;

/// Places inside the payloads of rows and nodes.
const ROW_FILE: usize = 8;
const ROW_LINE: usize = 12;
const ROW_COLUMN: usize = 16;
const NODE_CALL_FILE: usize = 2;
const NODE_CALL_LINE: usize = 6;
pub(crate) const NODE_NAME: usize = 10;
pub(crate) const FUNCTION_NAME: usize = 16;

/// What a frame is a call of.
#[derive(Clone, Copy, Debug, Eq, PartialEq)]
pub enum Kind {
    /// A function that stands in the code by itself: the outermost frame.
    Function,
    /// A function that was inlined into the next frame's.
    Inlined,
    /// A function that only a symbol table knows.
    Symbol,
}

/// One call: the function, and where in it.
#[derive(Clone, Copy, Debug, Eq, PartialEq)]
pub struct Frame<'a> {
    /// The name, as the linker knows it where DWARF says so.
    pub function: &'a [u8],
    pub kind: Kind,
    /// None where nothing is known.
    pub location: Option<Location<'a>>,
}

/// A place in the source.
#[derive(Clone, Copy, Debug, Eq, PartialEq)]
pub struct Location<'a> {
    /// None where the file is not known, though the line is.
    pub file: Option<File<'a>>,
    pub line: u32,
    /// 0 where it is not known: the records have none of a call.
    pub column: u16,
}

/// A source file.
#[derive(Clone, Copy, Debug, Eq, PartialEq)]
pub struct File<'a> {
    pub directory: &'a [u8],
    pub basename: &'a [u8],
}

impl File<'_> {
    /// Directory and basename joined: by a backslash where the directory is a Windows one that has a backslash behind its drive or begins with two.
    pub fn path(&self) -> Vec<u8> {
        let separator: &[u8] = match self.directory {
            [] | [.., b'/' | b'\\'] => b"",
            [_, b':', b'\\', ..] | [b'\\', b'\\', ..] => b"\\",
            _ => b"/",
        };
        [self.directory, separator, self.basename].concat()
    }
}

impl fmt::Display for File<'_> {
    fn fmt(&self, f: &mut fmt::Formatter<'_>) -> fmt::Result {
        f.write_str(&readable(&self.path()))
    }
}

/// Bytes as text; what is no UTF-8 is replaced.
pub fn readable(bytes: &[u8]) -> Cow<'_, str> {
    String::from_utf8_lossy(bytes)
}

/// The frames at an address, innermost first; reversed, outermost first.
#[derive(Clone, Debug)]
pub struct Frames<'a> {
    table: &'a Table,
    records: &'a [u8],
    found: look::Frames,
    by_symbol: bool,
    next: usize,
    end: usize,
}

impl<'a> Frames<'a> {
    pub(crate) fn new(table: &'a Table, records: &'a [u8], found: look::Frames, by_symbol: bool) -> Self {
        // A function without inlined calls has no node, and is one frame.
        let end = found.chain().len().max(1);
        Self { table, records, found, by_symbol, next: 0, end }
    }

    /// The function that holds the address: its own name, start and end.
    pub fn function(&self) -> (&'a [u8], u64, u64) {
        self.field(self.found.function)
            .map_or((&[], 0, 0), |function| (function.text(FUNCTION_NAME), function.number(0, 8), function.number(8, 8)))
    }

    fn field(&self, place: usize) -> Option<Field<'a>> {
        Field::at(self.records, place)
    }

    /// The frame of a depth: 0 is the function's own.
    fn frame(&self, depth: usize) -> Frame<'a> {
        let chain = self.found.chain();
        let (function, kind) = match depth {
            0 => (self.function().0, if self.by_symbol { Kind::Symbol } else { Kind::Function }),
            _ => (self.field(chain[depth]).map_or(&[][..], |node| node.text(NODE_NAME)), Kind::Inlined),
        };
        let location = match chain.get(depth + 1) {
            // The frame's own line is the one that calls the node below it.
            Some(&below) => self.field(below).and_then(|node| self.location(node, NODE_CALL_FILE, NODE_CALL_LINE, None)),
            None => self.found.row.and_then(|row| self.location(self.field(row)?, ROW_FILE, ROW_LINE, Some(ROW_COLUMN))),
        };
        Frame { function, kind, location }
    }

    fn location(&self, field: Field<'a>, file: usize, line: usize, column: Option<usize>) -> Option<Location<'a>> {
        let file = self.table.file(field.number(file, 4) as u32);
        let line = field.number(line, 4) as u32;
        let column = column.map_or(0, |column| field.number(column, 2) as u16);
        (file.is_some() || line != 0).then_some(Location { file, line, column })
    }
}

impl<'a> Iterator for Frames<'a> {
    type Item = Frame<'a>;

    fn next(&mut self) -> Option<Frame<'a>> {
        if self.next == self.end {
            return None;
        }
        self.end -= 1;
        Some(self.frame(self.end))
    }

    fn size_hint(&self) -> (usize, Option<usize>) {
        (self.end - self.next, Some(self.end - self.next))
    }
}

impl DoubleEndedIterator for Frames<'_> {
    fn next_back(&mut self) -> Option<Self::Item> {
        if self.next == self.end {
            return None;
        }
        self.next += 1;
        Some(self.frame(self.next - 1))
    }
}

impl ExactSizeIterator for Frames<'_> {}
