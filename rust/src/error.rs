//! Why a table can't be made or read back.

use std::{error, fmt, io};

use crate::Refusal;

/// Why there is no table.
#[derive(Debug)]
pub enum Error {
    /// The symbols can't be joined to the records.
    Symbols(Refusal),
    /// The records are not in the form of a records tray.
    Records(Refusal),
    /// A stream of units is not what `dumper stream` writes, or breaks off.
    Stream(&'static str),
    /// The bytes are no saved table.
    Foreign,
    /// They are a saved table of another version.
    Version(u32),
    /// They were a saved table and are damaged.
    Damaged(&'static str),
    Read(io::Error),
}

impl fmt::Display for Error {
    fn fmt(&self, f: &mut fmt::Formatter<'_>) -> fmt::Result {
        match self {
            Self::Symbols(refusal) => write!(f, "the symbols can't be joined: refused {}, {refusal}", refusal.number()),
            Self::Records(refusal) => write!(f, "the records are refused: {}, {refusal}", refusal.number()),
            Self::Stream(what) => write!(f, "no stream of units: {what}"),
            Self::Foreign => f.write_str("not an index that this program wrote"),
            Self::Version(version) => write!(f, "an index of version {version}, which this program does not read: make it again"),
            Self::Damaged(what) => write!(f, "a damaged index ({what}): make it again"),
            Self::Read(error) => error.fmt(f),
        }
    }
}

impl error::Error for Error {
    fn source(&self) -> Option<&(dyn error::Error + 'static)> {
        match self {
            Self::Symbols(refusal) | Self::Records(refusal) => Some(refusal),
            Self::Read(error) => Some(error),
            _ => None,
        }
    }
}

impl From<io::Error> for Error {
    fn from(error: io::Error) -> Self {
        Self::Read(error)
    }
}
