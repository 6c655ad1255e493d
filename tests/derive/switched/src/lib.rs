//! A calculator, whose lexer is derived by the crate `logos`.

#![warn(missing_docs)]

pub mod lexer;

use lexer::{LexingError, Token};
use logos::Logos;
use std::iter::Peekable;

/// What is wrong, and the bytes at which it is.
pub type Fault = (LexingError, std::ops::Range<usize>);

/// Evaluates sums and products of whole numbers.
pub fn evaluate(text: &str) -> Result<i64, Fault> {
    let mut tokens = Token::lexer(text).spanned().peekable();
    let value = sum(&mut tokens, text.len())?;
    match tokens.next() {
        None => Ok(value),
        Some((item, span)) => Err((item.err().unwrap_or_default(), span)),
    }
}

type Tokens<'s> = Peekable<logos::SpannedIter<'s, Token<'s>>>;

fn sum(tokens: &mut Tokens, end: usize) -> Result<i64, Fault> {
    let mut value = product(tokens, end)?;
    while let Some((Ok(Token::Plus | Token::Minus), _)) = tokens.peek() {
        let is_plus = matches!(tokens.next(), Some((Ok(Token::Plus), _)));
        let next = product(tokens, end)?;
        value = if is_plus { value + next } else { value - next };
    }
    Ok(value)
}

fn product(tokens: &mut Tokens, end: usize) -> Result<i64, Fault> {
    let mut value = atom(tokens, end)?;
    while let Some((Ok(Token::Times), _)) = tokens.peek() {
        tokens.next();
        value *= atom(tokens, end)?;
    }
    Ok(value)
}

fn atom(tokens: &mut Tokens, end: usize) -> Result<i64, Fault> {
    match tokens.next() {
        Some((Ok(Token::Integer(value)), _)) => Ok(value),
        Some((Ok(Token::Constant(name)), _)) => Ok(name.len() as i64),
        Some((Ok(Token::Open), _)) => {
            let value = sum(tokens, end)?;
            match tokens.next() {
                Some((Ok(Token::Close), _)) => Ok(value),
                Some((item, span)) => Err((item.err().unwrap_or_default(), span)),
                None => Err((LexingError::default(), end..end)),
            }
        }
        Some((item, span)) => Err((item.err().unwrap_or_default(), span)),
        None => Err((LexingError::default(), end..end)),
    }
}
