use logos::Logos;

#[derive(Logos)]
enum Token {
    #[regex("[a-z]")]
    Letter,
    #[regex("[a-f]")]
    Digit,
    #[token]
    None,
}
