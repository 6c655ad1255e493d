//! Strings with escapes.

use logos::{Lexer, Logos};
use std::borrow::Cow;

#[derive(Clone, Debug, Default, PartialEq)]
enum Fault {
    #[default]
    UnknownCharacter,
    UnclosedString,
    UnknownEscape(char),
}

#[derive(Logos, Debug, PartialEq)]
#[logos(skip r"[ \n]+", error = Fault)]
#[logos(subpattern inside = r#"([^"\\\n]|\\[^\n])*"#)]
enum Token<'s> {
    #[regex(r#""(?&inside)""#, text)]
    #[regex(r#""(?&inside)"#, |_| Err(Fault::UnclosedString))]
    Text(Cow<'s, str>),
}

/// Returns the text of a string, without its quotes and escapes.
fn text<'s>(lexer: &mut Lexer<'s, Token<'s>>) -> Result<Cow<'s, str>, Fault> {
    let slice = lexer.slice();
    let inside = &slice[1..slice.len() - 1];
    if !inside.contains('\\') {
        return Ok(Cow::Borrowed(inside));
    }
    let mut text = String::with_capacity(inside.len());
    let mut characters = inside.chars();
    while let Some(character) = characters.next() {
        text.push(match character {
            '\\' => unescaped(characters.next())?,
            other => other,
        });
    }
    Ok(Cow::Owned(text))
}

/// Returns the character that a backslash before this character denotes.
fn unescaped(character: Option<char>) -> Result<char, Fault> {
    match character {
        Some('n') => Ok('\n'),
        Some('t') => Ok('\t'),
        Some(same @ ('"' | '\\')) => Ok(same),
        other => Err(Fault::UnknownEscape(other.unwrap_or('\\'))),
    }
}

fn main() {
    let input = r#"
        "plain" "a \"b\"\n" "" "c\q"
        "open
        "end\\"
    "#;
    for (item, span) in Token::lexer(input).spanned() {
        println!("{span:?} {item:?}");
    }
}
