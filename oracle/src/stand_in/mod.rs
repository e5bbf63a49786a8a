//! What the Rust's text leans on and what is not here, as far as the text asks for it.

pub mod gimli;
pub mod hashbrown;
pub mod smallvec;
pub mod validation;
pub mod writer;
