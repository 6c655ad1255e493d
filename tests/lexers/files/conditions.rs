//! Conditions on enums and on variants.

use logos::Logos;

#[cfg(all())]
#[derive(Debug, Logos)]
#[cfg_attr(all(), allow(dead_code))]
pub enum Token {
    #[cfg(all())]
    #[token("if")]
    If,
    #[regex("[a-z]+")]
    Name,
    #[token(" ")]
    Blank,
}

/// It is never compiled.
#[cfg(any())]
#[derive(Debug, Logos)]
pub enum Absent {
    #[token("a", missing)]
    A(Missing),
}
