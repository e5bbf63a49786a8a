//! The crate's error, as far as an import gives it, and its number in document 01's table.

use crate::stand_in::gimli;

// Fields that only the Rust writes.
#[allow(dead_code)]
#[derive(Debug)]
pub enum Error {
    Overflow(&'static str),
    InvalidModel(&'static str),
    Limit { context: &'static str, value: u64, limit: u64 },
    Malformed { context: &'static str, detail: Box<str> },
    Dwarf { source: ParserError },
}

#[derive(Debug)]
pub struct ParserError(gimli::Error);

impl ParserError {
    const fn dwarf(error: gimli::Error) -> Self {
        Self(error)
    }
}

text!("error.rs");

/// The refusal that an error of an import is.
pub fn refusal(error: &Error) -> u8 {
    match error {
        Error::Dwarf { source: ParserError(gimli::Error::NoEntryAtGivenOffset(_)) } => 13,
        Error::Dwarf { source: ParserError(gimli::Error::Program(number) | gimli::Error::List(number)) } => *number,
        Error::Dwarf { .. } => 6,
        Error::Malformed { detail, .. } if **detail == *"truncated instruction" => 7,
        Error::Malformed { detail, .. } if **detail == *"truncated extended opcode" => 8,
        Error::Malformed { detail, .. } if **detail == *"zero-length extended opcode" => 9,
        Error::Malformed { detail, .. } if **detail == *"overflowing ULEB128 operand" => 10,
        Error::Malformed { detail, .. } if **detail == *"overlong ULEB128 operand" => 11,
        Error::Overflow(_) => 12,
        Error::Limit { context: "inline tree depth", .. } => 14,
        other => panic!("an error that document 01 gives no number: {other:?}"),
    }
}
