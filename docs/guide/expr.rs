#[logos(skip r"[ \t\n]+")]
enum Expr {
    #[regex("[0-9]+")]
    Number,
    #[regex("[a-z_][a-z0-9_]*")]
    Name,
    #[token("let")]
    Let,
    #[token("==")]
    EqEq,
    #[token("=")]
    Eq,
    #[token("+")]
    Plus,
    #[token("-")]
    Minus,
    #[token("*")]
    Star,
    #[token("/")]
    Slash,
    #[token("(")]
    Open,
    #[token(")")]
    Close,
}
