#[derive(logos::Logos)]
enum Word {
    #[regex("[a-z]+", priority = 9)]
    Small,
    #[token("if")]
    If,
    #[tokn("let")]
    Let,
}
