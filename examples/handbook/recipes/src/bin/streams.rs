//! An input that comes in parts.

use logos::{Lexer, Logos, Span};
use std::io::{self, Read};

#[derive(Logos, Clone, Copy, Debug, PartialEq)]
#[logos(utf8 = false, skip "[ \n]+")]
enum Token {
    #[regex("[a-z]+")]
    Word,
    #[regex("[0-9]+")]
    Number,
}

/// How many bytes are read at once. Programs take 64 KiB and more.
const PART: usize = 4;

/// How many bytes of a token may be left over from the parts before.
const LONGEST: usize = 1 << 20;

/// Calls a function for each item of an input, with its span in the whole input.
fn for_each(
    mut input: impl Read,
    mut item: impl FnMut(Result<Token, ()>, Span, &[u8]),
) -> io::Result<()> {
    let mut part = Vec::new();
    let mut offset = 0;
    loop {
        let left = part.len();
        if left > LONGEST {
            return Err(io::Error::new(io::ErrorKind::InvalidData, "a token is too long"));
        }
        // A long token is read again with each part, so the part is as long as the rest.
        let bytes = left.max(PART) as u64;
        let is_last = input.by_ref().take(bytes).read_to_end(&mut part)? == 0;
        let lexer = Lexer::<Token>::new(part.as_slice());
        let mut scanner = if is_last { lexer.scan() } else { lexer.scan_part() };
        for (found, span) in &mut scanner {
            item(found, offset + span.start..offset + span.end, &part[span]);
        }
        let end = part.len() - scanner.remainder().len();
        part.drain(..end);
        offset += end;
        if is_last {
            return Ok(());
        }
    }
}

fn main() -> io::Result<()> {
    let input: &[u8] = b"lexing goes on 2026 ! to the end";
    for_each(input, |item, span, text| {
        println!("{span:?} {item:?} \"{}\"", text.escape_ascii());
    })
}
