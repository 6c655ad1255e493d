//! The macro `#[derive(Logos)]`.
//!
//! Programs use the macro through the crate `logos`, which re-exports it. The macro calls the
//! library `logos-codegen` in the same process, and expands to the implementation that the library
//! returns.
//!
//! Your tokens keep their spans, so errors in your callbacks and types point into the enum. A fault
//! of the enum is an error at its tokens, with its code in brackets. Stable Rust has no spans
//! inside literals, so the message for a fault in a literal contains a copy of the line with
//! carets. Stable Rust has no warnings from macros either, so warnings are reported as uses of a
//! deprecated constant named `logos`. `#[allow(deprecated)]` on the enum silences them.
//!
//! # Environment variables
//!
//! - `LOGOS_SHAPE`: the shape of the implementation, which is `tables`, `tailcall` or
//!   `state_machine`. The default is `tables`, or `state_machine` with the feature
//!   `state_machine_codegen`. Cargo rebuilds a package if the variable has changed.
//! - `LOGOS_MEMORY`: the maximum memory that the library uses, such as `500M` or `4G`. The
//!   default is 1 GiB.

#![forbid(unsafe_code)]
#![warn(missing_docs)]

mod answer;
mod fault;
mod fill;
mod generics;
mod kept;
mod question;
mod record;
mod stub;
mod type_syntax;
mod warning;

use answer::{Answer, Failure, ShapeName};
use proc_macro::TokenStream;
use question::Question;

/// Implements the trait `Logos` for an enum whose variants carry patterns.
///
/// ```
/// use logos::{Lexer, Logos};
///
/// #[derive(Logos, Debug, PartialEq)]
/// #[logos(skip r"[ \t\n]+", extras = usize, error = String)]
/// #[logos(subpattern digits = "[0-9](_?[0-9])*")]
/// enum Token<'s> {
///     #[token("fast")]
///     #[token("quick", ignore(case))]
///     Fast,
///     #[regex("(?&digits)", |lex| lex.slice().parse().map_err(|_| "too large".to_string()))]
///     Number(u32),
///     #[regex(r"\p{XID_Start}\p{XID_Continue}*")]
///     Name(&'s str),
///     #[token(";", count)]
///     End,
/// }
///
/// fn count<'s>(lexer: &mut Lexer<'s, Token<'s>>) {
///     lexer.extras += 1;
/// }
///
/// let mut lexer = Token::lexer("Quick 12;");
/// assert_eq!(lexer.next(), Some(Ok(Token::Fast)));
/// assert_eq!(lexer.next(), Some(Ok(Token::Number(12))));
/// assert_eq!((lexer.next(), lexer.extras), (Some(Ok(Token::End)), 1));
/// ```
///
/// # Attributes of variants
///
/// - `#[token(literal)]`: the text of the literal, a string or a byte string.
/// - `#[regex(literal)]`: the texts that a regular expression matches, in the syntax of the crate
///   `regex`.
///
/// A variant may have several of these attributes. After the literal, both attributes take:
///
/// - a callback, or `callback = ..`: a path, or a closure of one parameter. The callback is called
///   with the lexer at each match. A variant without a field has no value. The value of a field is
///   the value that the callback returns, or the slice if there is no callback. A callback may also
///   return `bool`, `Option` or `Result` of the value, `Skip`, `Filter`, `FilterResult` or the
///   token.
/// - `priority = 3`: among matches of the same length, the match with the highest priority is
///   taken. The default priority grows with the minimum number of bytes that the pattern matches.
/// - `ignore(case)`: letters match in both cases.
/// - `allow_greedy = true`, for a `regex`: permits a final `.*` or similar, which matches the rest
///   of the input or of the line.
///
/// # Attributes of the enum
///
/// `#[logos(..)]` takes these options. Options marked "repeatable" may occur several times.
///
/// - `skip literal` or `skip(literal, callback, priority = 3, ..)`, repeatable: a regular
///   expression whose matches are skipped.
/// - `subpattern name = literal`, repeatable: a part of patterns, used as `(?&name)`.
/// - `extras = Type`: the type of the lexer's state `extras`, which callbacks read and change. The
///   default is `()`.
/// - `error = Type` or `error(Type, callback)`: the type of errors, which has to be
///   `Default + Clone + PartialEq + Debug`, and the function that makes an error from the lexer.
///   The default type is `()`.
/// - `type T = Type`, repeatable: the type for a type parameter.
/// - `utf8 = false`: inputs are `[u8]` instead of `str`.
/// - `crate = path`: the path of the crate `logos`, if it has another name.
/// - `export_dir = "path"`: the path to which the program `logos export` writes the state diagram.
///   The macro writes no file, and the path need not exist. With the feature `debug`, the macro
///   prints a note about this.
#[proc_macro_derive(Logos, attributes(logos, extras, error, end, token, regex))]
pub fn derive(item: TokenStream) -> TokenStream {
    let question = Question::new(item.clone());
    let made = shape().and_then(|shape| {
        answer::set_budget()?;
        let answer = answer_to(&question, shape)?;
        implementation(&answer, &question, &item)
    });
    let (mut tokens, is_refused) = match made {
        Ok(made) => made,
        Err(failure) => (fault::failure(&failure, &question), true),
    };
    tokens.extend(tracked());
    if is_refused {
        tokens.extend(stub::stub(item));
    }
    tokens
}

/// The note that the macro prints for an enum with `export_dir`.
const UNWRITTEN: &str =
    "[logos] export_dir: the macro writes no file; `logos export FILE` writes the state diagram";

/// Returns the stored answer about an enum. If no answer is stored, calls the library and stores
/// its answer. With the feature `debug`, prints the implementation to standard error.
fn answer_to(question: &Question, shape: ShapeName) -> Result<Answer, Failure> {
    let place = kept::Place::new(&question.text, shape);
    let answer = match place.find() {
        Some(answer) => answer,
        None => {
            let answer = answer::ask(question, shape)?;
            place.keep(&answer);
            answer
        }
    };
    if let (true, Some(found)) = (cfg!(feature = "debug"), &answer.implementation) {
        eprintln!("[logos] {}: {}", shape.0, found.text);
        if question.has_option("export_dir") {
            eprintln!("{UNWRITTEN}");
        }
    }
    Ok(answer)
}

/// Returns the implementation of the enum, or its faults if the enum is refused, with the warnings
/// in both cases. The `bool` is `true` if the enum is refused.
fn implementation(
    answer: &Answer,
    question: &Question,
    item: &TokenStream,
) -> Result<(TokenStream, bool), Failure> {
    let mut tokens = TokenStream::new();
    for found in &answer.diagnostics {
        tokens.extend(match found.is_error {
            true => fault::error(found, question),
            false => warning::warning(found, question, item),
        });
    }
    match &answer.implementation {
        Some(found) => tokens.extend(fill::tokens(found, question)?),
        None => return Ok((tokens, true)),
    }
    Ok((tokens, false))
}

/// Returns the shape that the variable `LOGOS_SHAPE` names, or the default shape if the variable is
/// empty or not set.
fn shape() -> Result<ShapeName, Failure> {
    let word = std::env::var("LOGOS_SHAPE").unwrap_or_default();
    if word.is_empty() {
        let is_machine = cfg!(feature = "state_machine_codegen");
        return Ok(ShapeName(ShapeName::ALL[if is_machine { 2 } else { 0 }]));
    }
    let shape = ShapeName::ALL.into_iter().find(|shape| *shape == word);
    shape.map(ShapeName).ok_or_else(|| {
        let help = "help: write `tables`, `tailcall` or `state_machine`";
        Failure(format!("the variable LOGOS_SHAPE is `{word}`\n{help}"))
    })
}

/// Returns an item that reads the variable `LOGOS_SHAPE`, so that Cargo rebuilds the package if the
/// variable has changed. A function that is never called leaves no trace in the compiler's output.
fn tracked() -> TokenStream {
    "const _: () = { #[allow(dead_code)] fn tracked() { \
     let _ = ::core::option_env!(\"LOGOS_SHAPE\"); } };"
        .parse()
        .unwrap_or_default()
}
