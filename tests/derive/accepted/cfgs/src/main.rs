//! Parts that a feature turns on or off.

use logos::Logos;

#[cfg(feature = "off")]
#[derive(Logos)]
enum Never {
    #[regex("this is no pattern (")]
    Faulty,
}

#[derive(Debug, PartialEq)]
#[cfg_attr(feature = "on", derive(Logos))]
#[cfg_attr(feature = "on", logos(skip " +"))]
#[cfg_attr(feature = "off", logos(skip "-+"))]
enum Token {
    #[token("a")]
    A,
    #[cfg(feature = "off")]
    #[token("b")]
    B,
    #[cfg(not(feature = "off"))]
    #[token("b", |lex| lex.span().start)]
    B(usize),
    #[cfg_attr(feature = "on", regex("[c-e]"))]
    #[cfg_attr(feature = "off", regex("[f-h]"))]
    Letter,
    #[cfg(any())]
    #[token("a")]
    SecondA,
}

#[cfg(not(feature = "off"))]
mod twice {
    #[derive(logos::Logos, Debug)]
    pub enum Token {
        #[token("first")]
        First,
    }
}

#[cfg(feature = "off")]
mod twice {
    #[derive(logos::Logos, Debug)]
    pub enum Token {
        #[token("second")]
        Second,
    }
}

fn main() {
    println!("{:?}", Token::lexer("a bd-").collect::<Vec<_>>());
    println!("{:?}", twice::Token::lexer("first").next());
}
