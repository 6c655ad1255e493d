enum Expr {
    #[token("==")]
    EqEq,
    #[token("=")]
    Eq,
}
