//! Numbers.

use logos::{Lexer, Logos};
use std::num::IntErrorKind;

#[derive(Clone, Debug, Default, PartialEq)]
enum Fault {
    #[default]
    UnknownCharacter,
    TooLarge,
    BadNumber,
}

#[derive(Logos, Debug, PartialEq)]
#[logos(skip " +", error = Fault)]
#[logos(subpattern digits = "[0-9](?:_?[0-9])*")]
enum Token {
    #[regex("(?&digits)", |lexer| integer(lexer, 0, 10))]
    #[regex("0x[0-9a-fA-F](?:_?[0-9a-fA-F])*", |lexer| integer(lexer, 2, 16))]
    #[regex("0b[01](?:_?[01])*", |lexer| integer(lexer, 2, 2))]
    #[regex("(?&digits)[a-zA-Z_][a-zA-Z0-9_]*", |_| Err(Fault::BadNumber), priority = 1)]
    Integer(u64),
    #[regex(r"(?&digits)\.(?&digits)([eE][+\-]?(?&digits))?", decimal)]
    #[regex(r"(?&digits)[eE][+\-]?(?&digits)", decimal)]
    Decimal(f64),
    #[token("..")]
    Range,
    #[token(".")]
    Point,
    #[regex("[a-z]+")]
    Name,
}

/// Returns the value of a number that begins after a prefix.
fn integer(lexer: &Lexer<'_, Token>, prefix: usize, radix: u32) -> Result<u64, Fault> {
    let digits = lexer.slice()[prefix..].replace('_', "");
    u64::from_str_radix(&digits, radix).map_err(|error| match error.kind() {
        IntErrorKind::PosOverflow => Fault::TooLarge,
        _ => Fault::BadNumber,
    })
}

/// Returns the value of a number, where it is finite.
fn decimal(lexer: &mut Lexer<'_, Token>) -> Result<f64, Fault> {
    match lexer.slice().replace('_', "").parse() {
        Ok(value) if f64::is_finite(value) => Ok(value),
        Ok(_) => Err(Fault::TooLarge),
        Err(_) => Err(Fault::BadNumber),
    }
}

fn main() {
    let input = "1_000 0xFF 0b101 2.5e-1 1e3 1..9 7.abs 0x 12px 1__0 18446744073709551616 1e999";
    for (item, span) in Token::lexer(input).spanned() {
        println!("{:?} {item:?}", &input[span]);
    }
}
