//! The builder's checks. They refuse nothing: the oracle records what is offered to add_function.

use crate::Result;
use crate::model::{FileIndex, Function};

pub fn validate_for_builder(_function: &Function) -> Result<FileIndex> {
    Ok(FileIndex::ZERO)
}

pub fn validate_function_files(_function: &Function, _files: usize) -> Result<()> {
    Ok(())
}
