//! Evaluates sums.

use logos::{Lexer, Logos, Span, SpannedIter};
use std::iter::Peekable;

#[derive(Clone, Debug, Default, PartialEq)]
enum Fault {
    #[default]
    UnknownCharacter,
    NumberTooLarge,
    DivisionByZero,
    Expected(&'static str),
}

#[derive(Logos, Clone, Copy, Debug, PartialEq)]
#[logos(skip "[ \t]+", error = Fault)]
enum Token {
    #[regex("[0-9]+", number)]
    Number(i64),
    #[token("+")]
    Plus,
    #[token("-")]
    Minus,
    #[token("*")]
    Star,
    #[token("/")]
    Slash,
    #[token("(")]
    Open,
    #[token(")")]
    Close,
}

/// Returns the value of a number.
fn number(lexer: &mut Lexer<'_, Token>) -> Result<i64, Fault> {
    lexer.slice().parse().map_err(|_| Fault::NumberTooLarge)
}

/// How deep parentheses may nest.
const DEPTH: usize = 100;

struct Parser<'s> {
    tokens: Peekable<SpannedIter<'s, Token>>,
    end: usize,
    depth: usize,
}

type Value = Result<i64, (Fault, Span)>;

impl Parser<'_> {
    /// Takes the next token if it is an operator of this precedence.
    fn operator(&mut self, precedence: u8) -> Option<(Token, Span)> {
        let precedence_of = |token| match token {
            Token::Plus | Token::Minus => 1,
            Token::Star | Token::Slash => 2,
            _ => 0,
        };
        let is_wanted = |item: &(Result<Token, Fault>, Span)| matches!(item.0, Ok(token) if precedence_of(token) == precedence);
        let (item, span) = self.tokens.next_if(is_wanted)?;
        Some((item.ok()?, span))
    }

    /// Evaluates operators of this precedence, from left to right.
    fn operation(&mut self, precedence: u8) -> Value {
        if precedence > 2 {
            return self.operand();
        }
        let mut left = self.operation(precedence + 1)?;
        while let Some((token, span)) = self.operator(precedence) {
            let right = self.operation(precedence + 1)?;
            left = apply(left, token, right).map_err(|fault| (fault, span))?;
        }
        Ok(left)
    }

    /// Evaluates a number, or an expression in parentheses.
    fn operand(&mut self) -> Value {
        match self.tokens.next() {
            Some((Ok(Token::Number(value)), _)) => Ok(value),
            Some((Ok(Token::Open), span)) if self.depth < DEPTH => self.nested(span),
            Some((Ok(_), span)) => Err((Fault::Expected("a number or `(`"), span)),
            Some((Err(fault), span)) => Err((fault, span)),
            None => Err((Fault::Expected("a number or `(`"), self.end..self.end)),
        }
    }

    /// Evaluates up to the closing parenthesis.
    fn nested(&mut self, open: Span) -> Value {
        self.depth += 1;
        let value = self.operation(1)?;
        self.depth -= 1;
        match self.tokens.next() {
            Some((Ok(Token::Close), _)) => Ok(value),
            Some((Err(fault), span)) => Err((fault, span)),
            _ => Err((Fault::Expected("`)` for this"), open)),
        }
    }
}

fn apply(left: i64, operator: Token, right: i64) -> Result<i64, Fault> {
    let value = match operator {
        Token::Plus => left.checked_add(right),
        Token::Minus => left.checked_sub(right),
        Token::Star => left.checked_mul(right),
        _ if right == 0 => return Err(Fault::DivisionByZero),
        _ => left.checked_div(right),
    };
    value.ok_or(Fault::NumberTooLarge)
}

/// Evaluates a sum.
fn evaluate(text: &str) -> Value {
    let tokens = Token::lexer(text).spanned().peekable();
    let mut parser = Parser { tokens, end: text.len(), depth: 0 };
    let value = parser.operation(1)?;
    match parser.tokens.next() {
        None => Ok(value),
        Some((Ok(_), span)) => Err((Fault::Expected("an operator"), span)),
        Some((Err(fault), span)) => Err((fault, span)),
    }
}

fn main() {
    for text in [
        "2 * (10 - 3) - 4 - 1",
        "7 / (3 - 3)",
        "9223372036854775807 + 1",
        "2 * (1 + 3",
        "1 2",
        "5 % 2",
        "3 +",
    ] {
        match evaluate(text) {
            Ok(value) => println!("{text} = {value}"),
            Err((fault, span)) => println!("{text}: {fault:?} at {span:?}"),
        }
    }
}
