#[logos(skip r"[ \t\n\f]+")]
enum Token {
    #[token("fast")]
    Fast,
    #[token(".")]
    Period,
    #[regex("[a-zA-Z]+")]
    Text,
}
