//! Functions that find the ends of ghost items and clauses. The braces of a ghost item or clause
//! contain antt instead of Rust. In antt, comments begin with `--`, and a quote is a letter. Used
//! by `tokens`.

use crate::Refusal;
use crate::tokens::{line_end, string_end, word_end};

/// Returns the byte offset after the blanks and comments that begin at the byte offset `at`.
fn skip_blanks(bytes: &[u8], mut at: usize) -> usize {
    while at < bytes.len() {
        match bytes[at] {
            byte if byte.is_ascii_whitespace() => at += 1,
            b'/' if bytes.get(at + 1) == Some(&b'/') => at = line_end(bytes, at),
            _ => break,
        }
    }
    at
}

/// Skips the blanks and comments at `at` and the antt braces after them, and returns the byte
/// offset after the braces. Returns a refusal if there are no braces or the braces do not end.
/// `item` is the byte offset of the clause or item with the braces.
fn braces_after(bytes: &[u8], item: usize, at: usize) -> Result<usize, Refusal> {
    let open = skip_blanks(bytes, at);
    if bytes.get(open) != Some(&b'{') {
        return Err(Refusal::new(item, "a clause or a ghost item without braces"));
    }
    let (mut depth, mut end) = (0, open);
    while end < bytes.len() {
        match bytes[end] {
            b'{' => depth += 1,
            b'}' if depth == 1 => return Ok(end + 1),
            b'}' => depth -= 1,
            b'"' => end = string_end(bytes, end)? - 1,
            b'-' if bytes.get(end + 1) == Some(&b'-') => end = line_end(bytes, end) - 1,
            _ => {}
        }
        end += 1;
    }
    Err(Refusal::new(open, "a brace of a clause or a ghost item that is not closed"))
}

/// Returns the byte offset after a clause: `requires` or `ensures` at `at..word`, optionally a
/// name, and braces. Returns a refusal if the clause has no braces.
pub(crate) fn clause_end(text: &str, at: usize, word: usize) -> Result<usize, Refusal> {
    let bytes = text.as_bytes();
    braces_after(bytes, at, word_end(bytes, skip_blanks(bytes, word)))
}

/// Returns the byte offset after a ghost item whose word `ghost` is at `at..word`. Returns a
/// refusal unless the item has one of these forms:
///
/// - `ghost use path;`
/// - `ghost name = {..};`, a member of an `impl`
/// - `ghost name: {..};` and `ghost name: {..} = {..};`, a member of a trait
/// - `ghost name: {..},` and `ghost name: {..} by {..},`, a field, whose comma may be left out
///   before a closing brace
pub(crate) fn ghost_end(text: &str, at: usize, word: usize) -> Result<usize, Refusal> {
    let bytes = text.as_bytes();
    let name = skip_blanks(bytes, word);
    let name_end = word_end(bytes, name);
    if &text[name..name_end] == "use" {
        let unending = Refusal::new(at, "a ghost use without a semicolon");
        return text[name_end..].find(';').map(|length| name_end + length + 1).ok_or(unending);
    }
    let mark = skip_blanks(bytes, name_end);
    let unknown = Refusal::new(at, "an unknown form of a ghost item");
    if name_end == name || !matches!(bytes.get(mark), Some(b':' | b'=')) {
        return Err(unknown);
    }
    let mut end = braces_after(bytes, at, mark + 1)?;
    loop {
        let next = skip_blanks(bytes, end);
        match bytes.get(next) {
            Some(b';' | b',') => return Ok(next + 1),
            Some(b'}') => return Ok(end),
            Some(b'=') => end = braces_after(bytes, at, next + 1)?,
            Some(b'b') if bytes[next..].starts_with(b"by") => {
                end = braces_after(bytes, at, next + 2)?
            }
            _ => return Err(unknown),
        }
    }
}
