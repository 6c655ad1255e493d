//! Inputs that are bytes.

use crate::{found, items};
use logos::{Lexer, Logos};

#[test]
fn bytes_that_are_no_text() {
    #[derive(Logos, Debug, PartialEq)]
    #[logos(utf8 = false)]
    enum Token {
        #[token(b"\xCA\xFE")]
        Magic,
        #[regex(b"[\x80-\xC0]+")]
        High,
    }
    use Token::{High, Magic};
    let wanted = [
        (Ok(Magic), 0..2),
        (Ok(High), 2..4),
        (Err(()), 4..5),
        (Err(()), 5..6),
    ];
    assert_eq!(found::<Token>(b"\xCA\xFE\x80\xC0\xFF\xCA"), wanted);
}

#[test]
fn errors_end_inside_of_characters() {
    #[derive(Logos, Debug, PartialEq)]
    #[logos(utf8 = false)]
    enum Token {
        #[token("a")]
        A,
    }
    assert_eq!(
        found::<Token>("éa".as_bytes()),
        [(Err(()), 0..1), (Err(()), 1..2), (Ok(Token::A), 2..3)]
    );
}

#[test]
fn text_patterns_on_bytes() {
    #[derive(Logos, Debug, PartialEq)]
    #[logos(utf8 = false)]
    enum Token {
        #[regex("[α-ω]+")]
        Greek,
        #[regex(r"\d+")]
        Digits,
    }
    use Token::{Digits, Greek};
    let input = "αω٣7".as_bytes();
    assert_eq!(
        found::<Token>(input),
        [(Ok(Greek), 0..4), (Ok(Digits), 4..7)]
    );
}

#[test]
fn slices_are_bytes() {
    #[derive(Logos, Debug, PartialEq)]
    #[logos(utf8 = false)]
    enum Token<'s> {
        #[regex(b"[^\0]+", |lex| lex.slice())]
        Text(&'s [u8]),
        #[token(b"\0")]
        Zero,
    }
    use Token::{Text, Zero};
    assert_eq!(
        items::<Token>(b"ab\0\xFF"),
        [Ok(Text(b"ab")), Ok(Zero), Ok(Text(b"\xFF"))]
    );
}

#[test]
fn a_slice_without_a_callback() {
    #[derive(Logos, Debug, PartialEq)]
    #[logos(utf8 = false)]
    enum Token<'s> {
        #[regex("[a-z]+")]
        Word(&'s [u8]),
    }
    assert_eq!(items::<Token>(b"xyz"), [Ok(Token::Word(b"xyz"))]);
}

#[test]
fn a_packet_by_its_length() {
    #[derive(Logos, Debug, PartialEq)]
    #[logos(utf8 = false)]
    enum Token<'s> {
        #[regex(b"(?s)\x01.", packet)]
        Packet(&'s [u8]),
    }
    fn packet<'s>(lex: &mut Lexer<'s, Token<'s>>) -> Option<&'s [u8]> {
        let length = usize::from(lex.slice()[1]);
        let body = lex.remainder().get(..length)?;
        lex.bump(length);
        Some(body)
    }
    let wanted = [
        (Ok(Token::Packet(b"\x01\xFF")), 0..4),
        (Ok(Token::Packet(b"")), 4..6),
        (Err(()), 6..8),
    ];
    assert_eq!(found::<Token>(b"\x01\x02\x01\xFF\x01\x00\x01\x0A"), wanted);
}

#[test]
fn a_dot_is_a_byte() {
    #[derive(Logos, Debug, PartialEq)]
    #[logos(utf8 = false)]
    enum Token {
        #[regex(b".")]
        Byte,
        #[regex("<.>")]
        Bracketed,
    }
    use Token::{Bracketed, Byte};
    // In a text literal the dot is a character; without `(?s)` no dot is a line feed.
    let wanted = [(Ok(Byte), 0..1), (Err(()), 1..2), (Ok(Bracketed), 2..6)];
    assert_eq!(found::<Token>(b"\xE9\n<\xC3\xA9>"), wanted);
    assert_eq!(items::<Token>(b"<\xE9>"), [Ok(Byte), Ok(Byte), Ok(Byte)]);
}

#[test]
fn flags_switch_to_bytes() {
    #[derive(Logos, Debug, PartialEq)]
    #[logos(utf8 = false)]
    enum Token {
        #[regex(r"(?-u)[\xF0-\xFF]")]
        High,
        #[regex(r"(?-u:\w)+")]
        Ascii,
    }
    use Token::{Ascii, High};
    let wanted = [(Ok(High), 0..1), (Ok(Ascii), 1..3), (Err(()), 3..4)];
    assert_eq!(found::<Token>(b"\xF5a_\xC3"), wanted);
}

#[test]
fn any_bytes_at_all() {
    #[derive(Logos, Debug, PartialEq)]
    #[logos(utf8 = false)]
    enum Token {
        #[regex(br"(?s-u:.)", priority = 1)]
        Any,
    }
    let input: Vec<u8> = (0..=255).collect();
    let found = found::<Token>(&input);
    assert_eq!(found.len(), 256);
    assert!(found
        .into_iter()
        .enumerate()
        .all(|(at, it)| it == (Ok(Token::Any), at..at + 1)));
}

#[test]
fn byte_patterns_on_text() {
    #[derive(Logos, Debug, PartialEq)]
    enum Token {
        #[token(b"abc")]
        Abc,
        #[regex(b"[0-9]+")]
        Digits,
    }
    use Token::{Abc, Digits};
    assert_eq!(
        found::<Token>("abc42"),
        [(Ok(Abc), 0..3), (Ok(Digits), 3..5)]
    );
}
