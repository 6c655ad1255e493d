//! Lexers from enums: `#[derive(Logos)]`, and the runtime of the generated lexers.
//!
//! The trait [`Logos`] is implemented by the derive macro, or by generated code that the program
//! `logos_cli` prints. [`Logos::lexer`] returns a lexer on an input. The lexer is an iterator over
//! tokens. A table-driven lexer looks ahead by chunks of the input where this saves time.
//!
//! A `for` loop is as fast as `for_each` if the compiler keeps the lexer in registers. The compiler
//! can do so if there is one call of `next`, and each function that takes the lexer is inlined.
//! With several calls of `next`, the lexer is in memory, and each token costs additional loads and
//! stores.
//!
//! # Features
//!
//! - `export_derive`, on by default: the derive macro.
//! - `std`, on by default: a [`Lexer`] looks ahead, and stores the items that it found in a box.
//!   Without this feature, the crate needs only `core`.
//! - `state_machine_codegen`: the derive macro prints the shape `state_machine`, not `tables`.
//! - `debug`: the derive macro prints the implementations on standard error.
//! - `forbid_unsafe`: [`Source`] has no unsafe methods. This crate has no unsafe code either way.

#![no_std]
#![cfg_attr(feature = "forbid_unsafe", forbid(unsafe_code))]
#![cfg_attr(not(feature = "forbid_unsafe"), deny(unsafe_code))]
#![warn(missing_docs)]

#[cfg(feature = "std")]
extern crate std;

#[cfg(feature = "std")]
mod ahead;
#[cfg(not(feature = "std"))]
mod alone;
mod characters;
#[cfg(feature = "std")]
mod chunk;
mod data;
#[cfg_attr(not(feature = "std"), allow(dead_code))]
mod folded;
#[cfg(feature = "std")]
mod guess;
#[allow(missing_docs)]
pub mod internal;
mod layout;
mod lexer;
mod loops;
mod rows;
mod run;
mod scan;
pub mod source;
#[cfg(feature = "std")]
mod walk;
#[cfg(feature = "std")]
mod word;

pub(crate) use lexer::Way;
pub use lexer::{Lexer, Span, SpannedIter};
#[cfg(feature = "export_derive")]
pub use logos_derive::Logos;
pub use scan::{Scan, Scanner};
pub use source::Source;

/// An enum whose variants are tokens.
pub trait Logos<'source>: Sized {
    /// The type of the state that callbacks can read and change.
    type Extras;

    /// The type of inputs, such as `str`, or `[u8]` for bytes.
    type Source: Source + ?Sized + 'source;

    /// The type of the error for unmatched input.
    type Error: Default + Clone + PartialEq + core::fmt::Debug + 'source;

    /// Returns the next token, the error for unmatched input, or `None` at the end of the input.
    ///
    /// Generated code implements this function. Programs iterate over a [`Lexer`] instead.
    fn lex(lexer: &mut Lexer<'source, Self>) -> Option<Result<Self, Self::Error>>;

    /// Returns a lexer at the start of `source`, with default extras.
    fn lexer(source: &'source Self::Source) -> Lexer<'source, Self>
    where
        Self::Extras: Default,
    {
        Lexer::new(source)
    }

    /// Returns a lexer at the start of `source`, with `extras`.
    fn lexer_with_extras(
        source: &'source Self::Source,
        extras: Self::Extras,
    ) -> Lexer<'source, Self> {
        Lexer::with_extras(source, extras)
    }
}

/// Returns [`Skip`]. Used as a callback that skips the match, as in `#[regex(" +", logos::skip)]`.
#[inline]
pub fn skip<'source, Token: Logos<'source>>(_lexer: &mut Lexer<'source, Token>) -> Skip {
    Skip
}

/// The result of a callback that skips the match.
#[derive(Clone, Copy, Debug, PartialEq, Eq)]
pub struct Skip;

/// The result of a callback: a token with a value, or no token.
#[derive(Clone, Copy, Debug, PartialEq, Eq)]
pub enum Filter<Value> {
    /// A token with this value.
    Emit(Value),
    /// No token.
    Skip,
}

/// The result of a callback: a token with a value, no token, or an error.
#[derive(Clone, Copy, Debug, PartialEq, Eq)]
pub enum FilterResult<Value, Error> {
    /// A token with this value.
    Emit(Value),
    /// No token.
    Skip,
    /// An error instead of a token.
    Error(Error),
}
