//! Shows the frames of some bytes.

use bare::Frame;
use logos::Logos;

fn main() {
    let mut lexer = Frame::lexer(b"\x02\x02ab\x00\x00\x11\x11\x13\x04\x02\x09");
    while let Some(item) = lexer.next() {
        println!("{:?} {item:?}", lexer.span());
    }
    println!("{:?}", lexer.extras);
}
