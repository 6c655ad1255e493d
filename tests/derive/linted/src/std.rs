//! A module with a name that printed text could use.

pub const NAME: &str = "std";
