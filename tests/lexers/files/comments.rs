//! Comments in all places.

use logos::Logos; // the trait

// Before the enum.
/// What is read. // no comment
#[derive(
    Debug, // shown
    Logos, // read
    Clone, // copied
)]
/* before options */
#[logos(skip " ")] // blanks
pub enum Token {
    // Before a variant.
    /// A word /* no comment */.
    #[regex("[a-z]+")] // its pattern
    // between
    #[regex("[A-Z]+")]
    /* before its name */
    Word, // after it

    /* alone */
    #[token("\"")]
    Quote,
    /// The last.
    #[token("/*")] /* one */ /* two */
    Open,
    // At the end.
}
// After the enum.
