//! A dependency that has a lexer of its own.

/// A word.
#[derive(logos::Logos, Clone, Copy, Debug, PartialEq)]
#[logos(skip " +")]
pub enum Word {
    /// Small letters.
    #[regex("[a-z]+")]
    Small,
    /// Capital letters.
    #[regex("[A-Z]+")]
    Capital,
}
