//! Strings with code in them, as in `"sum: ${a + "b"}"`.

use logos::{Lexer, Logos, Span};

/// The tokens of code.
#[derive(Logos, Clone, Debug, PartialEq)]
#[logos(skip " +")]
enum Code {
    #[regex("[a-z]+")]
    Name,
    #[token("+")]
    Plus,
    #[token("{")]
    Open,
    #[token("}")]
    Close,
    #[token("\"")]
    Quote,
}

/// The tokens of a string.
#[derive(Logos, Clone, Debug, PartialEq)]
enum Text {
    #[regex(r#"([^"\\$]|\\.)+"#)]
    #[token("$")]
    Piece,
    #[token("${")]
    Open,
    #[token("\"")]
    Quote,
}

#[derive(Debug, PartialEq)]
enum Token {
    Code(Code),
    Text(Text),
}

/// The mode of reading.
enum Mode<'s> {
    Code(Lexer<'s, Code>),
    Text(Lexer<'s, Text>),
}

struct Tokens<'s> {
    mode: Option<Mode<'s>>,
    /// For each string that contains code, the number of braces that are open in this code.
    open: Vec<usize>,
}

impl<'s> Tokens<'s> {
    fn new(text: &'s str) -> Self {
        Tokens { mode: Some(Mode::Code(Code::lexer(text))), open: Vec::new() }
    }

    /// Returns the mode after a token of code.
    fn after_code(&mut self, lexer: Lexer<'s, Code>, token: &Code) -> Mode<'s> {
        match (token, self.open.last_mut()) {
            (Code::Quote, _) => return Mode::Text(lexer.morph()),
            (Code::Open, Some(open)) => *open += 1,
            (Code::Close, Some(0)) => {
                self.open.pop();
                return Mode::Text(lexer.morph());
            }
            (Code::Close, Some(open)) => *open -= 1,
            _ => {}
        }
        Mode::Code(lexer)
    }

    /// Returns the mode after a token of a string.
    fn after_text(&mut self, lexer: Lexer<'s, Text>, token: &Text) -> Mode<'s> {
        match token {
            Text::Piece => Mode::Text(lexer),
            Text::Quote => Mode::Code(lexer.morph()),
            Text::Open => {
                self.open.push(0);
                Mode::Code(lexer.morph())
            }
        }
    }
}

impl Iterator for Tokens<'_> {
    type Item = (Result<Token, ()>, Span);

    fn next(&mut self) -> Option<Self::Item> {
        match self.mode.take()? {
            Mode::Code(mut lexer) => {
                let (item, span) = (lexer.next()?, lexer.span());
                self.mode = Some(match &item {
                    Ok(token) => self.after_code(lexer, token),
                    Err(()) => Mode::Code(lexer),
                });
                Some((item.map(Token::Code), span))
            }
            Mode::Text(mut lexer) => {
                let Some(item) = lexer.next() else {
                    // The input ends in a string.
                    return Some((Err(()), lexer.span()));
                };
                let span = lexer.span();
                self.mode = Some(match &item {
                    Ok(token) => self.after_text(lexer, token),
                    Err(()) => Mode::Text(lexer),
                });
                Some((item.map(Token::Text), span))
            }
        }
    }
}

fn main() {
    for text in [r#"a + "b$ ${ {c} + "d${e}" }!""#, "\"a"] {
        for (item, span) in Tokens::new(text) {
            println!("{item:?} {:?}", &text[span]);
        }
    }
}
