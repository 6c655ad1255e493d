//! Replaces Rattle's `std::collections`: sets and maps whose growth may fail.
//!
//! Rust's `BTreeSet` cannot grow fallibly, and Rust's hash tables can grow beyond the budget of
//! this crate. Therefore, `BTreeSet` is implemented with [`Vec`](crate::vec::Vec), and `HashMap`
//! and `HashSet` are the types of [`crate::crates::indexmap`].

mod btree_set;

pub use crate::crates::indexmap::{IndexMap as HashMap, IndexSet as HashSet};
pub use btree_set::BTreeSet;
