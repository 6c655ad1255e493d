#[logos(skip(r"#[^\n]*", comment, allow_greedy = true))]
#[logos(skip " ")]
enum Token {
    #[regex("[0-9]+", |lex| lex.slice().parse::<u32>())]
    Number(u32),
    #[token("+")]
    Plus,
}
