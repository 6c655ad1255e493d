//! Reads JSON, and prints the value with sorted keys.

use logos::{Logos, Span, SpannedIter};
use std::collections::BTreeMap;

#[derive(Logos, Clone, Copy, Debug, PartialEq)]
#[logos(skip r"[ \t\r\n]+")]
#[logos(subpattern whole = "0|[1-9][0-9]*")]
#[logos(subpattern escape = r#"\\(["\\/bfnrt]|u[0-9a-fA-F]{4})"#)]
enum Token<'s> {
    #[token("null")]
    Null,
    #[token("true", |_| true)]
    #[token("false", |_| false)]
    Boolean(bool),
    #[regex(r"-?(?&whole)(\.[0-9]+)?([eE][+\-]?[0-9]+)?", |lexer| lexer.slice().parse().ok())]
    Number(f64),
    #[regex(r#""([^"\\\x00-\x1F]|(?&escape))*""#, |lexer| lexer.slice())]
    String(&'s str),
    #[regex("[{}\\[\\]:,]", |lexer| lexer.slice().as_bytes()[0])]
    Mark(u8),
}

/// A value. Strings are slices of the text, with their quotes and escapes.
#[derive(Debug)]
#[allow(dead_code)]
enum Value<'s> {
    Null,
    Boolean(bool),
    Number(f64),
    String(&'s str),
    Array(Vec<Value<'s>>),
    Object(BTreeMap<&'s str, Value<'s>>),
}

type Fault = (&'static str, Span);

/// How deep arrays and objects may nest.
const DEPTH: usize = 100;

struct Reader<'s> {
    tokens: SpannedIter<'s, Token<'s>>,
    depth: usize,
}

impl<'s> Reader<'s> {
    fn next(&mut self) -> Result<(Token<'s>, Span), Fault> {
        match self.tokens.next() {
            Some((Ok(token), span)) => Ok((token, span)),
            Some((Err(()), span)) => Err(("no token begins here", span)),
            None => Err(("the text ends too early", self.tokens.span())),
        }
    }

    fn value(&mut self, (token, span): (Token<'s>, Span)) -> Result<Value<'s>, Fault> {
        match token {
            Token::Null => Ok(Value::Null),
            Token::Boolean(value) => Ok(Value::Boolean(value)),
            Token::Number(value) => Ok(Value::Number(value)),
            Token::String(text) => Ok(Value::String(text)),
            Token::Mark(b'[' | b'{') if self.depth == DEPTH => Err(("too deep", span)),
            Token::Mark(b'[') => self.array(),
            Token::Mark(b'{') => self.object(),
            Token::Mark(_) => Err(("a value is expected", span)),
        }
    }

    fn array(&mut self) -> Result<Value<'s>, Fault> {
        let mut values = Vec::new();
        self.items(b']', |reader, first| {
            values.push(reader.value(first)?);
            Ok(())
        })?;
        Ok(Value::Array(values))
    }

    fn object(&mut self) -> Result<Value<'s>, Fault> {
        let mut members = BTreeMap::new();
        self.items(b'}', |reader, first| {
            let (Token::String(key), _) = first else {
                return Err(("a key is expected", first.1));
            };
            let (Token::Mark(b':'), _) = reader.next()? else {
                return Err(("`:` is expected", reader.tokens.span()));
            };
            let first = reader.next()?;
            members.insert(key, reader.value(first)?);
            Ok(())
        })?;
        Ok(Value::Object(members))
    }

    /// Reads items with commas between them, up to the closing mark.
    fn items(
        &mut self,
        close: u8,
        mut read: impl FnMut(&mut Self, (Token<'s>, Span)) -> Result<(), Fault>,
    ) -> Result<(), Fault> {
        let mut next = self.next()?;
        if next.0 == Token::Mark(close) {
            return Ok(());
        }
        self.depth += 1;
        loop {
            read(self, next)?;
            match self.next()? {
                (Token::Mark(b','), _) => next = self.next()?,
                (Token::Mark(mark), _) if mark == close => break,
                (_, span) => return Err(("`,` or the closing bracket is expected", span)),
            }
        }
        self.depth -= 1;
        Ok(())
    }
}

/// Reads the one value of a text.
fn read(text: &str) -> Result<Value<'_>, Fault> {
    let mut reader = Reader { tokens: Token::lexer(text).spanned(), depth: 0 };
    let first = reader.next()?;
    let value = reader.value(first)?;
    match reader.tokens.next() {
        None => Ok(value),
        Some((_, span)) => Err(("the value ends before this", span)),
    }
}

fn main() {
    for text in [
        r#"{"name": "Ada\n", "born": 1815, "tags": [true, null]}"#,
        "[1, 2.5e1",
        "[01]",
        "{1: 2}",
        "nul",
    ] {
        match read(text) {
            Ok(value) => println!("{value:?}"),
            Err((message, span)) => println!("{span:?}: {message}"),
        }
    }
}
