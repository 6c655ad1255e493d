#[logos(skip "[a-zA-Z]+")]
enum Shared {
    #[token(";")]
    End,
}
