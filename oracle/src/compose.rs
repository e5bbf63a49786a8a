//! Writes inputs field by field.

use crate::output::field;

/// The Standard's operand counts for opcodes 1 to 12.
pub const OPCODE_LENGTHS: [u8; 12] = [0, 1, 1, 1, 1, 0, 0, 0, 1, 0, 0, 1];

pub const COMPILE_UNIT: u16 = 0x11;
pub const INLINED: u16 = 0x1d;
pub const SUBPROGRAM: u16 = 0x2e;
pub const CALL_SITE: u16 = 0x48;
pub const BLOCK: u16 = 0x0b;

pub const NAME: u16 = 0x03;
pub const ORIGIN: u16 = 0x31;
pub const DECL_COLUMN: u16 = 0x39;
pub const DECL_FILE: u16 = 0x3a;
pub const DECL_LINE: u16 = 0x3b;
pub const SPECIFICATION: u16 = 0x47;
pub const CALL_FILE: u16 = 0x58;
pub const CALL_LINE: u16 = 0x59;
pub const LINKAGE_NAME: u16 = 0x6e;
pub const RETURN_PC: u16 = 0x7d;
pub const CALL_ORIGIN: u16 = 0x7f;
pub const MIPS_LINKAGE_NAME: u16 = 0x2007;
pub const STATEMENT_SEQUENCE: u16 = 0x3e0c;

/// Kinds of attributes.
pub const UNSIGNED: u8 = 1;
pub const FILE_NUMBER: u8 = 2;
pub const STRING: u8 = 3;
pub const UNIT_REF: u8 = 4;
pub const SECTION_REF: u8 = 5;
pub const SUPPLEMENTARY_REF: u8 = 6;
pub const SECTION_OFFSET: u8 = 7;
pub const ADDRESS: u8 = 9;
pub const FAILED: u8 = 10;

/// Kinds of rows.
pub const PLAIN: u8 = 0;
pub const END: u8 = 1;
pub const FAILED_ROW: u8 = 2;

/// How many fields an accepted input has.
pub fn field_count(input: &[u8]) -> usize {
    let (mut at, mut number) = (0, 0);
    while at < input.len() {
        at += 3 + usize::from(u16::from_le_bytes([input[at + 1], input[at + 2]]));
        number += 1;
    }
    number
}

#[derive(Default)]
pub struct Fields(pub Vec<u8>);

impl Fields {
    fn field(&mut self, tag: u8, parts: &[&[u8]]) -> &mut Self {
        field(&mut self.0, tag, parts);
        self
    }

    pub fn unit(&mut self, offset: u64, length: u64, version: u8, word: u8) -> &mut Self {
        self.field(0x10, &[&offset.to_le_bytes(), &length.to_le_bytes(), &[version, word]])
    }

    pub fn compilation_directory(&mut self, path: &[u8]) -> &mut Self {
        self.field(0x11, &[path])
    }

    pub fn text(&mut self, start: u64, end: u64) -> &mut Self {
        self.field(0x12, &[&start.to_le_bytes(), &end.to_le_bytes()])
    }

    pub fn header(&mut self, offset: u64, length: u64, version: u8, word: u8, base: u8, lengths: &[u8]) -> &mut Self {
        self.field(0x13, &[&offset.to_le_bytes(), &length.to_le_bytes(), &[version, word, base], lengths])
    }

    /// Minimum instruction length, operations per instruction, default statement flag, line base, line range (E8).
    pub fn encoding(&mut self, values: [u8; 5]) -> &mut Self {
        self.field(0x1d, &[&values])
    }

    /// The unit's part of the program (E11).
    pub fn part(&mut self, start: u64, length: u64) -> &mut Self {
        self.field(0x1e, &[&start.to_le_bytes(), &length.to_le_bytes()])
    }

    pub fn directory(&mut self, failed: u8, path: &[u8]) -> &mut Self {
        self.field(0x14, &[&[failed], path])
    }

    /// File 0 of a header before version 5.
    pub fn file_zero(&mut self, failed: u8, directory: u64, path: &[u8]) -> &mut Self {
        self.field(0x1c, &[&[failed], &directory.to_le_bytes(), path])
    }

    pub fn file(&mut self, failed: u8, directory: u64, path: &[u8]) -> &mut Self {
        self.field(0x15, &[&[failed], &directory.to_le_bytes(), path])
    }

    pub fn row(&mut self, address: u64, file: u64, line: u64, column: u16, kind: u8) -> &mut Self {
        self.field(0x16, &[&address.to_le_bytes(), &file.to_le_bytes(), &line.to_le_bytes(), &column.to_le_bytes(), &[kind]])
    }

    pub fn entry(&mut self, offset: u64, depth: u16, tag: u16) -> &mut Self {
        self.field(0x17, &[&offset.to_le_bytes(), &depth.to_le_bytes(), &tag.to_le_bytes()])
    }

    pub fn attribute(&mut self, name: u16, kind: u8, value: u64) -> &mut Self {
        let value = value.to_le_bytes();
        self.field(0x18, &[&name.to_le_bytes(), &[kind], if kind == FAILED { &[] } else { &value }])
    }

    pub fn string(&mut self, name: u16, text: &[u8]) -> &mut Self {
        self.field(0x18, &[&name.to_le_bytes(), &[STRING], text])
    }

    pub fn range(&mut self, start: u64, end: u64, tombstone: u8) -> &mut Self {
        self.field(0x19, &[&start.to_le_bytes(), &end.to_le_bytes(), &[tombstone]])
    }

    pub fn failure(&mut self, stage: u8, reason: &[u8]) -> &mut Self {
        self.field(0x1a, &[&[stage], reason])
    }

    /// Where an entry's ranges are: list offset, base address, place of the unit's addresses, their size (E9).
    pub fn list(&mut self, offset: u64, base: u64, addresses: u64, size: u8) -> &mut Self {
        self.field(0x1f, &[&offset.to_le_bytes(), &base.to_le_bytes(), &addresses.to_le_bytes(), &[size]])
    }

    pub fn take(&mut self) -> Vec<u8> {
        std::mem::take(&mut self.0)
    }
}
