//! Three lexers in one file, and two enums that are none.

use logos::Logos;

#[derive(Logos, Debug)]
pub enum Token {
    #[regex("[a-z]+")]
    Word,
    #[token("\"")]
    Quote,
}

/// No lexer.
#[derive(Debug, Clone)]
pub enum Plain {
    Token,
    Other { from: usize },
}

#[derive(Logos, Debug)]
pub enum Inside {
    #[regex(r#"[^"]+"#)]
    Text,
    #[token("\"")]
    Quote,
}

/// No lexer either.
#[derive(Debug)]
pub enum Never {}

#[derive(Debug, Clone, Copy, PartialEq, Eq, PartialOrd, Ord, Hash, Logos)]
pub enum Last {
    #[regex(".", |_| ())]
    Any,
}

/// Returns the words inside quotes.
pub fn quotes(text: &str) -> usize {
    let mut lexer = Token::lexer(text);
    let mut count = 0;
    while let Some(item) = lexer.next() {
        if let Ok(Token::Quote) = item {
            let mut inside = lexer.morph::<Inside>();
            count += usize::from(matches!(inside.next(), Some(Ok(Inside::Text))));
            lexer = inside.morph();
        }
    }
    count
}
