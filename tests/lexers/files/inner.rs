//! Documentation of the file itself.
//!
//! # Notes
//!/ An odd line.

/*! A block of it,
over two lines. */
#![allow(dead_code)]
#![allow(
    missing_docs, // why: no reason
    non_camel_case_types
)]

use logos::Logos;

#[derive(Logos, Debug)]
pub enum Token {
    #[token("a")]
    Lower,
    #[token("A")]
    Upper,
}
