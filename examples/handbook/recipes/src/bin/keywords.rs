//! Keywords and names.

use logos::Logos;

#[derive(Logos, Debug, PartialEq)]
#[logos(skip " +")]
enum Token<'s> {
    #[token("let")]
    Let,
    #[token("select", ignore(case))]
    Select,
    #[regex("u(8|16|32|64)")]
    IntegerType,
    #[regex(r"[\p{XID_Start}_]\p{XID_Continue}*")]
    #[regex(r"r#[\p{XID_Start}_]\p{XID_Continue}*", |lexer| &lexer.slice()[2..])]
    Name(&'s str),
}

fn main() {
    for item in Token::lexer("let letter SeLeCt u16 u17 r#let größe") {
        println!("{item:?}");
    }
}
