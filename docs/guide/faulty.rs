enum Expr {
    #[regex("[0-9]*")]
    Number,
    #[regex("[a-z")]
    Name,
}
