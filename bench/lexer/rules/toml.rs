#[derive(Logos)]
#[logos(skip r"[ \t]+")]
#[logos(skip(r"#[^\r\n]*", allow_greedy = true))]
#[logos(subpattern date = "[0-9]{4}-[0-9]{2}-[0-9]{2}")]
#[logos(subpattern time = r"[0-9]{2}:[0-9]{2}:[0-9]{2}(\.[0-9]+)?")]
enum Toml {
    #[regex(r"\r?\n")]
    LineEnd,
    #[regex(r"[\[\]{}=.,]")]
    Sign,
    #[token("true", priority = 40)]
    #[token("false", priority = 40)]
    Bool,
    #[regex("[A-Za-z0-9_-]+")]
    Key,
    #[regex("[+-]?(0|[1-9](_?[0-9])*)", priority = 20)]
    #[regex("0x[0-9a-fA-F](_?[0-9a-fA-F])*", priority = 20)]
    Integer,
    #[regex(r"[+-]?(0|[1-9](_?[0-9])*)\.[0-9](_?[0-9])*([eE][+-]?[0-9]+)?")]
    #[regex("[+-]?(inf|nan)", priority = 20)]
    Float,
    #[regex("(?&date)([T ](?&time)(Z|[+-][0-9]{2}:[0-9]{2})?)?", priority = 30)]
    #[regex("(?&time)", priority = 30)]
    Date,
    #[regex(r#""([^"\\\n]|\\[^\n])*""#)]
    Basic,
    #[regex(r"'[^'\n]*'")]
    Literal,
    #[regex(r#""""([^"\\]|\\[^\x00]|"[^"\\]|""[^"\\])*""""#)]
    Long,
}
