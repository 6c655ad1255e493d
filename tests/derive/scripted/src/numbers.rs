use logos::Logos;

#[derive(Debug, Logos)]
pub enum Number {
    #[regex("[0-9]+", |lex| lex.slice().parse().ok())]
    Whole(u8),
}
