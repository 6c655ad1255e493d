//! The dependency and its items under other names.

use lexing::Logos as Lex;
use lexing::{self as lg, Skip as LeaveOut};

#[derive(Lex, Debug, PartialEq)]
#[logos(crate = lexing)]
enum Plain {
    #[regex("[a-z]+")]
    Word,
    #[token(" ", |_| LeaveOut)]
    Blank,
}

#[derive(Debug, lg::Logos, PartialEq)]
#[logos(crate = crate::reexported::lexing, extras = usize)]
enum Path<'s> {
    #[regex("[0-9]+", |lex| { lex.extras += 1; lex.slice() })]
    Number(&'s str),
    #[regex(",", lg::skip)]
    Comma,
}

mod reexported {
    pub use lexing;
}

mod shadowed {
    #[allow(dead_code)]
    mod logos {}
    #[allow(dead_code)]
    type Result = ();
    #[allow(dead_code)]
    struct Option;

    #[derive(lexing::Logos, Debug)]
    #[logos(crate = ::lexing)]
    pub enum Some {
        #[token("1")]
        None,
    }
}

fn main() {
    println!("{:?}", Plain::lexer("ab cd").collect::<Vec<_>>());
    let mut lexer = Path::lexer("1,22");
    println!("{:?} {}", lexer.by_ref().collect::<Vec<_>>(), lexer.extras);
    println!("{:?}", <shadowed::Some as Lex>::lexer("1").next());
}
