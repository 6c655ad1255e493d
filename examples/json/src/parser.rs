//! From tokens to a value.

use crate::lexer::Token;
use crate::place::Error;
use crate::value::Value;
use logos::{Logos, Span, SpannedIter};

/// How deep arrays and objects may nest.
const DEPTH: usize = 512;

/// Reads the one value of a text.
pub fn parse(text: &str) -> Result<Value<'_>, Error> {
    let mut parser = Parser { tokens: Token::lexer(text).spanned(), text, depth: 0 };
    let first = parser.next()?;
    let value = parser.value(first)?;
    match parser.next()? {
        (None, _) => Ok(value),
        (Some(_), span) => Err(error(span, "the value ends before this")),
    }
}

struct Parser<'s> {
    tokens: SpannedIter<'s, Token>,
    text: &'s str,
    depth: usize,
}

type Next = (Option<Token>, Span);

impl<'s> Parser<'s> {
    /// Returns the next token, or none at the end.
    fn next(&mut self) -> Result<Next, Error> {
        match self.tokens.next() {
            None => Ok((None, self.text.len()..self.text.len())),
            Some((Ok(token), span)) => match complaint(token) {
                None => Ok((Some(token), span)),
                Some(message) => Err(error(span, message)),
            },
            Some((Err(()), span)) => Err(error(span, "no token of JSON begins here")),
        }
    }

    fn value(&mut self, (token, span): Next) -> Result<Value<'s>, Error> {
        use Token::*;
        match token {
            Some(Null | Boolean(_) | Integer | Decimal | Scientific | String) => Ok(Value::Plain(&self.text[span])),
            Some(BracketOpen) => self.nested(span, |parser| {
                parser.items(BracketClose, |parser, next| parser.value(next)).map(Value::Array)
            }),
            Some(BraceOpen) => {
                self.nested(span, |parser| parser.items(BraceClose, Self::member).map(Value::Object))
            }
            Some(_) => Err(error(span, "a value is expected here")),
            None => Err(error(span, "a value is expected, but the text ends")),
        }
    }

    fn nested(
        &mut self,
        span: Span,
        read: impl FnOnce(&mut Self) -> Result<Value<'s>, Error>,
    ) -> Result<Value<'s>, Error> {
        if self.depth == DEPTH {
            return Err(error(span, "arrays and objects nest too deep"));
        }
        self.depth += 1;
        let value = read(self);
        self.depth -= 1;
        value
    }

    /// Reads items with commas between them, up to the closing token.
    fn items<T>(&mut self, close: Token, read: impl Fn(&mut Self, Next) -> Result<T, Error>) -> Result<Vec<T>, Error> {
        let mut items = Vec::new();
        let mut next = self.next()?;
        if next.0 == Some(close) {
            return Ok(items);
        }
        loop {
            items.push(read(self, next)?);
            match self.next()? {
                (Some(token), _) if token == close => return Ok(items),
                (Some(Token::Comma), _) => next = self.next()?,
                (Some(_), span) => return Err(error(span, "a comma is expected here, or the end of the items")),
                (None, span) => return Err(error(span, "the text ends inside brackets")),
            }
        }
    }

    fn member(&mut self, (token, span): Next) -> Result<(&'s str, Value<'s>), Error> {
        if token != Some(Token::String) {
            return Err(error(span, "a name in double quotes is expected here"));
        }
        match self.next()? {
            (Some(Token::Colon), _) => {
                let next = self.next()?;
                Ok((&self.text[span], self.value(next)?))
            }
            (_, span) => Err(error(span, "a colon is expected after the name")),
        }
    }
}

/// Returns the error message for a token that JSON does not have.
fn complaint(token: Token) -> Option<&'static str> {
    match token {
        Token::LeadingZero => Some("a number has no zeros in front"),
        Token::LonePoint => Some("a point stands between digits"),
        Token::PlusSign => Some("a number has no plus sign"),
        Token::UnclosedString => Some("the text is still open at the end of the line"),
        Token::BadEscape => Some("no such escape"),
        Token::ShortEscape => Some("an escape by number has four digits"),
        Token::SingleQuoted => Some("texts stand in double quotes"),
        Token::UnclosedComment => Some("the comment is not closed"),
        Token::Word => Some("the only words are null, true and false"),
        _ => None,
    }
}

fn error(span: Span, message: &str) -> Error {
    Error { span, message: message.into() }
}
