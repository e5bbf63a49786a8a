//! The payload of a field, value by value.

use crate::stand_in::gimli::{AttributeValue, DebugInfoOffset, DebugLineOffset, Encoding, Format, Range, Slice, UnitOffset};

pub const MISSHAPEN: u8 = 2;

/// Takes a payload apart from the front; what does not fit breaks the grammar.
pub struct Payload<'a>(pub &'a [u8]);

impl<'a> Payload<'a> {
    pub fn number(&mut self, size: usize) -> Result<u64, u8> {
        let (bytes, rest) = self.0.split_at_checked(size).ok_or(MISSHAPEN)?;
        self.0 = rest;
        Ok(bytes.iter().rev().fold(0, |value, &byte| value << 8 | u64::from(byte)))
    }

    pub fn offset(&mut self) -> Result<usize, u8> {
        Ok(self.number(8)? as usize)
    }

    pub fn range(&mut self) -> Result<Range, u8> {
        Ok(Range { begin: self.number(8)?, end: self.number(8)? })
    }

    /// One byte, from `low` to `high`.
    pub fn byte(&mut self, low: u64, high: u64) -> Result<u8, u8> {
        let value = self.number(1)?;
        if (low..=high).contains(&value) { Ok(value as u8) } else { Err(MISSHAPEN) }
    }

    pub fn flag(&mut self) -> Result<bool, u8> {
        Ok(self.byte(0, 1)? == 1)
    }

    pub fn encoding(&mut self) -> Result<Encoding, u8> {
        let version = u16::from(self.byte(2, 5)?);
        match self.byte(4, 8)? {
            4 => Ok(Encoding { format: Format::Dwarf32, version }),
            8 => Ok(Encoding { format: Format::Dwarf64, version }),
            _ => Err(MISSHAPEN),
        }
    }

    pub fn rest(&mut self) -> Slice<'a> {
        Slice(std::mem::take(&mut self.0))
    }

    /// An attribute's kind and value.
    pub fn attribute(&mut self) -> Result<AttributeValue<Slice<'a>>, u8> {
        Ok(match self.byte(1, 10)? {
            1 => AttributeValue::Udata(self.number(8)?),
            2 => AttributeValue::FileIndex(self.number(8)?),
            3 => AttributeValue::String(self.rest()),
            4 => AttributeValue::UnitRef(UnitOffset(self.offset()?)),
            5 => AttributeValue::DebugInfoRef(DebugInfoOffset(self.offset()?)),
            6 => AttributeValue::DebugInfoRefSup(DebugInfoOffset(self.offset()?)),
            7 => AttributeValue::SecOffset(self.offset()?),
            8 => AttributeValue::DebugLineRef(DebugLineOffset(self.offset()?)),
            9 => AttributeValue::Addr(self.number(8)?),
            _ => AttributeValue::Failed,
        })
    }
}
