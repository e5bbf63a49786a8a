//! The writer's types, which the builder names. Nothing is written here.

use crate::{GsymBuilder, Result};

#[derive(Clone, Copy, Debug, Default, Eq, PartialEq)]
pub enum GsymVersion {
    #[default]
    V1,
}

#[derive(Clone, Copy, Debug, Default, Eq, PartialEq)]
pub enum Endian {
    #[default]
    Little,
}

#[derive(Clone, Debug, Default, Eq, PartialEq)]
pub struct WriterOptions {
    pub version: GsymVersion,
    pub endian: Endian,
    pub base_address: Option<u64>,
    pub build_id: Vec<u8>,
}

pub fn write_builder(_builder: GsymBuilder, _output: impl std::io::Write) -> Result<()> {
    Ok(())
}

pub fn encode_builder_to_bytes(_builder: GsymBuilder) -> Result<Vec<u8>> {
    Ok(Vec::new())
}
