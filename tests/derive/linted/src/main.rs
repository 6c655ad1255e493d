//! A lexer beside names that its text uses, and a count of tokens.

mod core;
mod std;

#[allow(unused)]
mod log {
    macro_rules! check {
        ($condition:expr $(, $more:tt)*) => {
            compile_error!("the wrong macro")
        };
    }
    pub(crate) use check as assert;
    pub(crate) use check as matches;
    pub(crate) use check as unreachable;
    pub(crate) use check as panic;
}

#[allow(unused_imports)]
use crate::log::*;

#[derive(logos::Logos, Debug)]
enum Token {
    #[token("a")]
    Some,
    #[regex("[b-d]+")]
    None,
    #[regex("[0-9]+", |lex| lex.slice().len() == 1)]
    Option,
}

fn main() {
    let tokens = <Token as logos::Logos>::lexer("ab0").flatten();
    let names = core::NAME.len() + std::NAME.len();
    println!(
        "{:?} {names} {:?}",
        linted::count("a 1 { } .. ...\nb"),
        tokens.collect::<Vec<_>>()
    );
}
