enum Expr {
    #[token("let")]
    Let,
    #[regex("let|var")]
    Word,
}
