//! Paths in place of imports.

#[derive(::logos::Logos, Debug)]
#[logos(crate = logos)]
pub enum Token {
    #[token("a")]
    A,
    #[token("b")]
    B,
}

#[derive(Debug, logos::Logos, Clone)]
pub enum Other {
    #[token("b", |_| ())]
    B,
}
