//! A lexer without the standard library.

#![no_std]
#![forbid(unsafe_code)]

use logos::{Lexer, Logos};

#[derive(Logos, Clone, Copy, Debug, PartialEq)]
#[logos(utf8 = false, error = u8, extras = [u8; 4])]
pub enum Frame<'s> {
    #[token(b"\x02", payload)]
    Payload(&'s [u8]),
    #[regex(b"\x00+", logos::skip)]
    Padding,
    #[regex(b"[\x10-\x13]", |lex| { let n = lex.slice()[0] & 3; lex.extras[n as usize] += 1; n })]
    Channel(u8),
}

/// Takes as many bytes as the next one says.
fn payload<'s>(lex: &mut Lexer<'s, Frame<'s>>) -> Result<&'s [u8], u8> {
    let Some((&length, rest)) = lex.remainder().split_first() else { return Err(1) };
    let Some(payload) = rest.get(..length as usize) else { return Err(2) };
    lex.bump(1 + payload.len());
    Ok(payload)
}
