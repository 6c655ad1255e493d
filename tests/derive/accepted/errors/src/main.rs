//! Errors of a type of the program, and inputs that are bytes.

use logos::Logos;
use std::fmt;
use std::num::ParseIntError;

#[derive(Clone, Debug, Default, PartialEq)]
pub enum Fault {
    #[default]
    Unknown,
    Number(String),
    Byte(u8, usize),
}

impl From<ParseIntError> for Fault {
    fn from(error: ParseIntError) -> Self {
        Fault::Number(error.to_string())
    }
}

impl fmt::Display for Fault {
    fn fmt(&self, f: &mut fmt::Formatter<'_>) -> fmt::Result {
        match self {
            Fault::Unknown => write!(f, "unknown"),
            Fault::Number(why) => write!(f, "{why}"),
            Fault::Byte(byte, at) => write!(f, "byte {byte:02X} at {at}"),
        }
    }
}

impl std::error::Error for Fault {}

mod text {
    use super::Fault;

    #[derive(logos::Logos, Clone, Debug, PartialEq)]
    #[logos(error = Fault, skip " ")]
    pub enum Token {
        #[regex("[0-9]+", |lex| lex.slice().parse::<u8>())]
        Small(u8),
        #[token("no", |_| false)]
        No,
    }
}

#[derive(Logos, Clone, Copy, Debug, PartialEq)]
#[logos(utf8 = false)]
#[logos(error(Fault, |lex| Fault::Byte(lex.slice()[0], lex.span().start)))]
#[logos(subpattern head = br"[\xC2-\xDF]")]
#[logos(subpattern tail = br"[\x80-\xBF]")]
enum Byte {
    #[regex(b"[\x00-\x7F]+")]
    Ascii,
    #[regex(b"(?&head)(?&tail)")]
    Two,
    #[regex(b"\xFF\xD8.", ignore(case))]
    Marker,
}

fn main() -> Result<(), Fault> {
    for (item, span) in text::Token::lexer("7 300 no ?").spanned() {
        match item {
            Ok(token) => println!("{span:?} {token:?}"),
            Err(fault) => println!("{span:?} {fault}"),
        }
    }
    for (item, span) in Byte::lexer(b"ab\xC3\xA9\xFF\xD8\x01\xC3\x80\x80").spanned() {
        println!("{span:?} {item:?}");
    }
    let first = text::Token::lexer("8").next().ok_or(Fault::Unknown)??;
    println!("{first:?}");
    Ok(())
}
