//! A package that denies all warnings, with other derives, documentation and names that are words.

#![deny(warnings, missing_docs, missing_debug_implementations, unused_qualifications)]
#![forbid(unsafe_code)]

use logos::Logos;

/// A token.
///
/// Its numbers are those of a table.
#[derive(Debug, Clone, Copy, PartialEq, Eq, PartialOrd, Ord, Hash, Logos)]
#[repr(u16)]
#[logos(skip(r"[ \t]+", priority = 3))]
#[logos(subpattern digits = "[0-9](_?[0-9])*", subpattern sign = r"[+\-]")]
#[non_exhaustive]
pub enum Token {
    /** A number, as `12` or `-1_000`. */
    #[regex("(?&sign)?(?&digits)")]
    Number = 1,
    /// Any of the three.
    #[token("fn", ignore(case))]
    #[token("func", ignore(case))]
    #[token("λ")]
    r#Fn = 4,
    #[doc(alias = "name")]
    #[regex(r"[[:alpha:]]\w*", priority = 1)]
    /// A name, also `größe`.
    #[allow(non_camel_case_types)]
    r#type,
    /// A comment: not `#[deprecated]`.
    #[regex(r"/\*([^*]|\*+[^*/])*\*+/")]
    Comment = 9,
    /// A string, with `\"` and line ends.
    #[regex(r##""([^"\\]|\\["\\n])*""##)]
    #[regex(r###"r#"[^"]*"#"###)]
    Text,
    /// Never found.
    Unused,
}

/// Shows the tokens of a text.
fn main() {
    let text = "fn FN λ größe -1_000 /* * **/ \"a\\\"\" r#\"x\"# 1__0";
    for (item, span) in Token::lexer(text).spanned() {
        match item {
            Ok(token) => println!("{} {:?} {}", token as u16, token, &text[span]),
            Err(()) => println!("error {}", &text[span]),
        }
    }
}
