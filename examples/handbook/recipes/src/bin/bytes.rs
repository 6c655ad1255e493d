//! Frames of bytes, some of which contain their own length.

use logos::{Lexer, Logos};

#[derive(Clone, Debug, Default, PartialEq)]
enum Fault {
    #[default]
    UnknownByte,
    Truncated,
}

#[derive(Logos, Debug, PartialEq)]
#[logos(utf8 = false, error = Fault)]
enum Frame<'s> {
    /// Bytes between a start and an end.
    #[regex(b"\x02[^\x03]*\x03")]
    Text(&'s [u8]),
    /// A mark, two bytes with a length, and as many bytes of data.
    #[regex(b"\x10(?s-u:.){2}", data)]
    Data(&'s [u8]),
    #[token(b"\x06")]
    Acknowledge,
}

/// Returns the data of a frame, and makes the match longer by them.
fn data<'s>(lexer: &mut Lexer<'s, Frame<'s>>) -> Result<&'s [u8], Fault> {
    let slice = lexer.slice();
    let length = usize::from(u16::from_be_bytes([slice[1], slice[2]]));
    let data = lexer.remainder().get(..length).ok_or(Fault::Truncated)?;
    lexer.bump(length);
    Ok(data)
}

fn main() {
    let input = b"\x06\x02hi\xFF\x03\x10\x00\x03\x06\x02\x03\x99\x10\xFF\x0Aab\x02z";
    for (item, span) in Frame::lexer(input.as_slice()).spanned() {
        println!("{span:?} {item:?}");
    }
}
