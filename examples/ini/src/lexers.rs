//! The lexers of a settings file. The build expands the derive of `Logos`, and `lib.rs` includes
//! the result.

use logos::{Lexer, Logos};
use std::fmt;

/// A line of a settings file.
#[derive(Clone, Debug, Logos, PartialEq)]
#[logos(skip r"[ \t\r\n]+")]
#[logos(skip(r"[#;][^\n]*", allow_greedy = true))]
#[logos(error = Fault)]
pub enum Line<'s> {
    /// `[name]` begins a section.
    #[regex(r"\[[^\]\n]*\]", |lex| inner(lex.slice()))]
    Section(&'s str),
    /// `name = value` sets a value.
    #[regex(r"[A-Za-z_][A-Za-z0-9_.]*[ \t]*=[^\n]*", setting, allow_greedy = true)]
    Setting(Setting<'s>),
}

/// A name and its value.
#[derive(Clone, Debug, PartialEq)]
pub struct Setting<'s> {
    pub name: &'s str,
    pub value: Vec<Value<'s>>,
}

/// The errors of a line.
#[derive(Clone, Debug, Default, PartialEq)]
pub enum Fault {
    /// It is neither a section nor a setting.
    #[default]
    Line,
    /// An error at this offset of a value.
    Value(usize),
}

impl fmt::Display for Fault {
    fn fmt(&self, f: &mut fmt::Formatter<'_>) -> fmt::Result {
        match self {
            Fault::Line => write!(f, "neither a section nor a setting"),
            Fault::Value(at) => write!(f, "no value at byte {at} of the line"),
        }
    }
}

mod value {
    use logos::Logos;

    /// A part of a value.
    #[derive(Clone, Debug, Logos, PartialEq)]
    #[logos(skip r"[ \t\r,]+")]
    pub enum Value<'s> {
        #[regex("-?[0-9]+", |lex| lex.slice().parse().ok())]
        Number(i64),
        #[token("true", |_| true)]
        #[token("false", |_| false)]
        Flag(bool),
        #[regex(r#""[^"\n]*""#, |lex| super::inner(lex.slice()))]
        Text(&'s str),
        #[regex("[A-Za-z_/][A-Za-z0-9_./-]*")]
        Word(&'s str),
    }
}

pub use value::Value;

/// Returns the text between the first and the last byte of a text.
fn inner(text: &str) -> &str {
    &text[1..text.len() - 1]
}

/// Reads the name of a setting, and its value by the other lexer.
fn setting<'s>(lex: &mut Lexer<'s, Line<'s>>) -> Result<Setting<'s>, Fault> {
    let line = lex.slice();
    let (name, rest) = line.split_once('=').expect("the pattern has `=`");
    let start = name.len() + 1;
    let mut values = Value::lexer(rest);
    let mut value = Vec::new();
    while let Some(item) = values.next() {
        value.push(item.map_err(|()| Fault::Value(start + values.span().start))?);
    }
    Ok(Setting {
        name: name.trim_end(),
        value,
    })
}
