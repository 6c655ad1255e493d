//! Nested comments.

use logos::{Lexer, Logos, Skip};

#[derive(Clone, Debug, Default, PartialEq)]
enum Fault {
    #[default]
    UnknownCharacter,
    UnclosedComment,
}

#[derive(Logos, Debug, PartialEq)]
#[logos(skip " +", error = Fault)]
#[logos(skip(r"/\*", comment))]
enum Token {
    #[regex("[a-z]+")]
    Word,
    #[token("*")]
    Star,
}

/// The delimiters of comments, and the text between them.
#[derive(Logos)]
enum Part {
    #[token("/*")]
    Open,
    #[token("*/")]
    Close,
    #[regex("[^/*]+|/|[*]")]
    Other,
}

/// Takes the comment that begins with the match, and those in it.
fn comment(lexer: &mut Lexer<'_, Token>) -> Result<Skip, Fault> {
    let mut parts = Part::lexer(lexer.remainder());
    let mut depth = 1;
    while let Some(Ok(part)) = parts.next() {
        match part {
            Part::Open => depth += 1,
            Part::Close => depth -= 1,
            Part::Other => {}
        }
        if depth == 0 {
            lexer.bump(parts.span().end);
            return Ok(Skip);
        }
    }
    lexer.bump(lexer.remainder().len());
    Err(Fault::UnclosedComment)
}

fn main() {
    for input in ["a /* b /* c **/ d */ * e", "a /* b /* c */ d"] {
        let items: Vec<_> = Token::lexer(input).spanned().collect();
        println!("{items:?}");
    }
}
