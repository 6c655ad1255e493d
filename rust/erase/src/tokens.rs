//! `token_at` finds the kind and the end of a token of a Rattle source. Each ghost item and each
//! clause is one token. Called by `source`.

use crate::Refusal;
use crate::ghosts::{clause_end, ghost_end};

/// The kind of a token: code that remains in Rust, a comment, or text that only proofs need.
pub(crate) enum Kind {
    /// A word, a number, another literal, `::`, or one character of punctuation.
    Code,
    Comment,
    /// A ghost item or a clause.
    Ghost,
}

/// Returns the kind of the token that begins at the byte offset `at`, and the offset after the
/// token. Returns a refusal if the token does not end, or if no token begins with the character at
/// `at`.
pub(crate) fn token_at(text: &str, at: usize) -> Result<(Kind, usize), Refusal> {
    let bytes = text.as_bytes();
    match (bytes[at], bytes.get(at + 1)) {
        (b'/', Some(b'/')) => Ok((Kind::Comment, line_end(bytes, at))),
        (b'/', Some(b'*')) => Ok((Kind::Comment, block_comment_end(bytes, at)?)),
        (b'"', _) => Ok((Kind::Code, string_end(bytes, at)?)),
        (b'\'', _) => Ok((Kind::Code, quote_end(text, at)?)),
        (b':', Some(b':')) => Ok((Kind::Code, at + 2)),
        (b'0'..=b'9' | b'a'..=b'z' | b'A'..=b'Z' | b'_', _) => word_at(text, at),
        (byte, _) if byte.is_ascii_punctuation() => Ok((Kind::Code, at + 1)),
        _ => Err(Refusal::new(at, "a character that is none of Rust's")),
    }
}

/// Returns the byte offset at which the line that contains the offset `at` ends, before its line
/// end.
pub(crate) fn line_end(bytes: &[u8], at: usize) -> usize {
    let length = bytes[at..].iter().position(|byte| *byte == b'\n');
    length.map_or(bytes.len(), |length| at + length)
}

/// Returns the byte offset after the ASCII letters, digits and underscores from `at` on.
pub(crate) fn word_end(bytes: &[u8], mut at: usize) -> usize {
    while at < bytes.len() && (bytes[at].is_ascii_alphanumeric() || bytes[at] == b'_') {
        at += 1;
    }
    at
}

/// Returns the kind of the token that begins with a word at the byte offset `at`, and the offset
/// after the token. The token is the word, a literal with a prefix, a ghost item or a clause.
/// Returns a refusal if a literal, a ghost item or a clause does not end.
fn word_at(text: &str, at: usize) -> Result<(Kind, usize), Refusal> {
    let bytes = text.as_bytes();
    let to = word_end(bytes, at);
    match (&text[at..to], bytes.get(to)) {
        ("r" | "br", Some(b'"' | b'#')) => Ok((Kind::Code, raw_string_end(text, at, to)?)),
        ("b", Some(b'"')) => Ok((Kind::Code, string_end(bytes, to)?)),
        ("b", Some(b'\'')) => Ok((Kind::Code, quote_end(text, to)?)),
        ("ghost", _) => Ok((Kind::Ghost, ghost_end(text, at, to)?)),
        ("requires" | "ensures", _) => Ok((Kind::Ghost, clause_end(text, at, to)?)),
        _ => Ok((Kind::Code, to)),
    }
}

/// Returns the byte offset after the string whose opening quote is at `at`, or a refusal if the
/// string does not end.
pub(crate) fn string_end(bytes: &[u8], at: usize) -> Result<usize, Refusal> {
    let mut end = at + 1;
    while end < bytes.len() {
        match bytes[end] {
            b'"' => return Ok(end + 1),
            b'\\' => end += 2,
            _ => end += 1,
        }
    }
    Err(Refusal::new(at, "a string that does not end"))
}

/// Returns the byte offset after the raw string that begins at `at`, or a refusal if the string
/// does not end. The hashes of the string, if there are any, begin at `hashes`.
fn raw_string_end(text: &str, at: usize, hashes: usize) -> Result<usize, Refusal> {
    let count = text[hashes..].bytes().take_while(|byte| *byte == b'#').count();
    let closing = format!("\"{}", &text[hashes..hashes + count]);
    let from = hashes + count + 1;
    match text.get(from..).and_then(|rest| rest.find(&closing)) {
        Some(length) => Ok(from + length + closing.len()),
        None => Err(Refusal::new(at, "a raw string that does not end")),
    }
}

/// Returns the byte offset after the lifetime or the character whose quote is at `at`, or a refusal
/// if the quote begins neither.
fn quote_end(text: &str, at: usize) -> Result<usize, Refusal> {
    let rest = &text[at + 1..];
    let length = rest.chars().next().map_or(0, char::len_utf8);
    if rest.starts_with('\\')
        && let Some(length) = rest.get(2..).and_then(|after| after.find('\''))
    {
        return Ok(at + 4 + length);
    }
    match word_end(text.as_bytes(), at + 1) {
        _ if rest[length..].starts_with('\'') => Ok(at + 2 + length),
        to if to > at + 1 => Ok(to),
        _ => Err(Refusal::new(at, "a quote that begins no character and no lifetime")),
    }
}

/// Returns the byte offset after the block comment that begins at `at`, or a refusal if the comment
/// does not end. Block comments may be nested.
fn block_comment_end(bytes: &[u8], at: usize) -> Result<usize, Refusal> {
    let (mut depth, mut end) = (0, at);
    while end + 1 < bytes.len() {
        match &bytes[end..end + 2] {
            b"/*" => (depth, end) = (depth + 1, end + 2),
            b"*/" if depth == 1 => return Ok(end + 2),
            b"*/" => (depth, end) = (depth - 1, end + 2),
            _ => end += 1,
        }
    }
    Err(Refusal::new(at, "a comment that does not end"))
}
