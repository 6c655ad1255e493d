//! Long lists and long callbacks.

use logos::{Lexer, Logos};

#[derive(
    Debug, Clone, Copy, PartialEq, Eq, PartialOrd, Ord, Hash, Default, Logos /* and no more */,
)]
#[logos(skip(r"[ \t\r\n\u{feff}]+"))]
#[logos(
    skip(r"//[^\n]*", allow_greedy = true),
    skip(r"/\*(?:[^*]|\*+[^*/])*\*+/")
)]
pub enum Token {
    #[default]
    #[token("start of everything that stands in this file, however long the line may be made")]
    Start,
    #[regex(r"[\p{XID_Start}_][\p{XID_Continue}]*", |lex| {
        let text = lex.slice();
        let mut hash: u32 = 0x811c_9dc5;
        for byte in text.bytes() {
            hash = (hash ^ u32::from(byte)).wrapping_mul(0x0100_0193);
        }
        match (text.len(), hash % 2) {
            (0, _) => None,
            (1..=3, 0 | 1) => Some(hash),
            _ if matches!(text, "true" | "false") && !text.is_empty() => Some(1),
            _ => Some(hash & 0xFFFF),
        }
    })]
    Name(u32),
    #[regex(r#"r"[^"]*""#, |lex| { let text = "a { raw ; string }"; lex.slice().len() + text.len() - 18 })]
    Raw(usize),
    #[regex(r"[0-9]+\.[0-9]+(?:[eE][+-]?[0-9]+)?", decimal)]
    Decimal(bool),
    #[regex("'(?:[^'\\\\\n]|\\\\.)'", character, priority = 20)]
    Character(char),
}

/// Returns whether a number is small.
fn decimal(lex: &mut Lexer<Token>) -> Result<bool, ()> {
    lex.slice()
        .parse()
        .map(|value: f64| value < 1.0)
        .map_err(|_| ())
}

/// Returns the character between quotes.
fn character(lex: &mut Lexer<Token>) -> Option<char> {
    lex.slice().chars().nth(1)
}
