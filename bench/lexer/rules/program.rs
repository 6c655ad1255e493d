#[derive(Logos)]
#[logos(utf8 = false)]
#[logos(skip b"[ \t\n]+")]
enum Token {
    #[token("if")]
    If,
    #[token("else")]
    Else,
    #[token("while")]
    While,
    #[token("for")]
    For,
    #[token("return")]
    Return,
    #[token("let")]
    Let,
    #[token("fn")]
    Fn,
    #[token("break")]
    Break,
    #[token("continue")]
    Continue,
    #[token("struct")]
    Struct,
    #[regex("[A-Za-z_][A-Za-z0-9_]*")]
    Identifier,
    #[regex("[0-9]+([.][0-9]+)?")]
    Number,
    #[regex(b"\"([^\"\\\\\n]|\\\\[^\n])*\"")]
    Text,
    #[regex("[-+*/=<>!(){};,.]|\\[|\\]|==|!=|<=|>=|&&|[|][|]")]
    Operator,
}
