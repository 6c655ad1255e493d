//! A module with a name that printed text uses.

pub const NAME: &str = "core";
