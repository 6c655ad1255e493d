#[derive(logos::Logos)]
#[logos(skip r"[ \n]+")]
enum Token {
    #[regex(r"[a-z]+")]
    Word,
    #[regex(r"[0-9]+")]
    Number,
    #[token("=")]
    Is,
    #[regex(r"/\*([^*]|\*[^/])*\*/")]
    Comment,
}
