//! The words of the command line.

use std::ffi::OsString;
use std::path::PathBuf;

/// Which ./look prints without this program.
pub const HELP: &str = include_str!("help.txt");

pub struct Look {
    pub object: PathBuf,
    /// Empty: they come on standard input.
    pub addresses: Vec<u64>,
    /// Further words for the dumper.
    pub given: Vec<OsString>,
    pub json: bool,
    pub deepest: bool,
}

pub enum Command {
    Help,
    Look(Look),
    Index { object: PathBuf, file: PathBuf, given: Vec<OsString> },
}

/// An address in hex, with 0x or without.
pub fn address(word: &str) -> Option<u64> {
    let digits = word.strip_prefix("0x").or_else(|| word.strip_prefix("0X")).unwrap_or(word);
    // A sign is no digit.
    if digits.bytes().all(|digit| digit.is_ascii_hexdigit()) { u64::from_str_radix(digits, 16).ok() } else { None }
}

pub fn read(mut words: impl Iterator<Item = OsString>) -> Result<Command, String> {
    let (mut plain, mut given) = (Vec::new(), Vec::new());
    let (mut json, mut deepest, mut index) = (false, false, false);
    while let Some(word) = words.next() {
        match word.to_str() {
            Some("--help" | "-h") => return Ok(Command::Help),
            Some("--json") => json = true,
            Some("--deepest") => deepest = true,
            Some("--index") => index = true,
            Some("--supplementary") => given.extend([word, words.next().ok_or("--supplementary needs a file")?]),
            Some(other) if other.starts_with('-') && other.len() > 1 => return Err(format!("{other}?")),
            _ => plain.push(word),
        }
    }
    let mut plain = plain.into_iter();
    let object = PathBuf::from(plain.next().ok_or("no object is given")?);
    if index {
        let file = plain.next().ok_or("--index OBJECT INDEX: no file is given to write")?.into();
        return if json || deepest || plain.next().is_some() {
            Err("--index OBJECT INDEX takes no addresses".into())
        } else {
            Ok(Command::Index { object, file, given })
        };
    }
    let mut addresses = Vec::new();
    for word in plain {
        let asked = word.to_str().and_then(address);
        addresses.push(asked.ok_or_else(|| format!("{} is no address in hex", word.to_string_lossy()))?);
    }
    if deepest && !addresses.is_empty() {
        return Err("--deepest takes no addresses".into());
    }
    Ok(Command::Look(Look { object, addresses, given, json, deepest }))
}
