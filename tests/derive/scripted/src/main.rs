//! Shows the tokens of two lexers that the build script expands.

#[allow(unused)]
mod words {
    include!(concat!(env!("OUT_DIR"), "/words.rs"));
}

#[allow(unused)]
mod numbers {
    include!(concat!(env!("OUT_DIR"), "/numbers.rs"));
}

use logos::Logos;

fn main() {
    println!("{:?}", words::Word::lexer("ab c").collect::<Vec<_>>());
    println!("{:?}", numbers::Number::lexer("12").collect::<Vec<_>>());
}
