//! Two lexers over one input.

use logos::{Lexer, Logos};

/// The tokens between tags.
#[derive(Logos, Debug, PartialEq)]
enum Text<'s> {
    #[regex("[^<]+")]
    Words(&'s str),
    #[token("<")]
    Open,
}

/// The tokens inside of a tag.
#[derive(Logos, Debug, PartialEq)]
#[logos(skip r"[ \t\n]+")]
enum Tag<'s> {
    #[regex("[a-z]+")]
    Name(&'s str),
    #[token("/")]
    Slash,
    #[token("=")]
    Equals,
    #[regex("\"[^\"]*\"")]
    Value(&'s str),
    #[token(">")]
    Close,
}

/// Prints the tokens of a tag, and returns the lexer of the text after it.
fn read_tag<'s>(mut tag: Lexer<'s, Tag<'s>>) -> Lexer<'s, Text<'s>> {
    for item in tag.by_ref() {
        println!("  {item:?}");
        if item == Ok(Tag::Close) {
            break;
        }
    }
    tag.morph()
}

fn main() {
    let mut text = Text::lexer("one <b id=\"x\">three</b>!");
    while let Some(item) = text.next() {
        println!("{item:?} {:?}", text.span());
        if item == Ok(Text::Open) {
            text = read_tag(text.morph());
        }
    }
}
