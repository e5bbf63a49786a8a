//! What is told of a unit beside its sheets.

use gimli::AttributeValue;

use crate::dump::Input;
use crate::unit::{self, Decoded, Source};

/// What is told of a unit beside its sheets.
pub struct About {
    pub number: usize,
    pub offset: u64,
    pub version: u16,
    pub language: String,
    pub name: String,
    pub producer: String,
    /// How long the decoder runs the line program, in nanoseconds; 0 where that is not asked.
    pub decoding: u64,
}

impl About {
    fn new(number: usize, offset: u64) -> Self {
        About {
            number,
            offset,
            version: 0,
            language: "-".into(),
            name: "-".into(),
            producer: "-".into(),
            decoding: 0,
        }
    }

    fn describe(&mut self, source: &Source, decoded: &Decoded) {
        let unit = &decoded.unit;
        self.version = unit.encoding().version;
        if let Some(name) = unit.name {
            self.name = printable(name.slice());
        }
        let mut cursor = unit.entries();
        let Ok(Some((_, root))) = cursor.next_dfs() else {
            return;
        };
        if let Ok(Some(AttributeValue::Language(language))) = root.attr_value(gimli::DW_AT_language)
        {
            let name = language.static_string().unwrap_or("-");
            self.language = name.trim_start_matches("DW_LANG_").into();
        }
        if let Ok(Some(producer)) = root.attr_value(gimli::DW_AT_producer) {
            if let Some(text) = unit::text(source.dwarf, unit, producer) {
                self.producer = printable(text);
            }
        }
    }
}

/// Bytes for one column of a text file.
pub fn printable(bytes: &[u8]) -> String {
    let text = String::from_utf8_lossy(bytes);
    let text = text.replace(|letter: char| letter.is_control(), "?");
    if text.is_empty() {
        "-".into()
    } else {
        text
    }
}

/// What is told of a unit of the main file.
pub fn about(input: &Input, number: usize) -> About {
    let mut about = About::new(number, input.main.place(number).0);
    if let Ok(decoded) = input.main.unit(number) {
        about.describe(&input.main, decoded);
    }
    about
}
