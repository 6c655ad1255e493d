#[derive(logos::Logos)]
enum Digits {
    #[regex("[0-9]+")]
    Number,
    #[regex(r"[0-9]+\.[0-9]+")]
    Float,
}
