//! Replaces the crates of the toolchain's kit that the erased crates use. Each module has the name
//! of the crate that it replaces.

pub mod indexmap;
pub mod itoa;
pub mod json;
pub mod unicode;
pub mod unicode_ident;
mod unicode_tables;
pub mod unicode_width;
