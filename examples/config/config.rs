#[logos(skip r"[ \t]+")]
#[logos(skip(r"#[^\n]*", allow_greedy = true))]
#[logos(subpattern digits = "[0-9](_?[0-9])*")]
#[logos(subpattern exponent = "[eE][+-]?[0-9]+")]
#[logos(subpattern time = r"[0-9]{2}:[0-9]{2}:[0-9]{2}(\.[0-9]+)?")]
#[logos(subpattern date = "[0-9]{4}-[0-9]{2}-[0-9]{2}")]
enum Config {
    #[regex(r"\r?\n")]
    LineEnd,
    #[token("[")]
    Open,
    #[token("]")]
    Close,
    #[token("=")]
    Equals,
    #[token(",")]
    Comma,
    #[token(".")]
    Point,
    #[token("true")] #[token("false")]
    Boolean,
    #[regex(r"[+\-]?(?&digits)", priority = 20)]
    #[regex("0x[0-9a-fA-F]+", priority = 20)]
    #[regex("0o[0-7]+", priority = 20)]
    #[regex("0b[01]+", priority = 20)]
    Integer,
    #[regex(r"[+\-]?(?&digits)\.(?&digits)(?&exponent)?", priority = 20)]
    #[regex(r"[+\-]?(?&digits)(?&exponent)", priority = 20)]
    #[regex(r"[+\-]?(inf|nan)", priority = 20)]
    Float,
    #[regex("(?&date)([T ](?&time)(Z|[+-][0-9]{2}:[0-9]{2})?)?", priority = 30)]
    #[regex("(?&time)", priority = 30)]
    Moment,
    #[regex(r#""([^"\\\n]|\\[^\n])*""#)]
    #[regex("'[^'\n]*'")]
    Text,
    #[regex(r"[a-zA-Z0-9_\-]+", priority = 1)]
    Name,
    // Malformed tokens.
    #[regex(r#""([^"\\\n]|\\[^\n])*"#)]
    #[regex("'[^'\n]*")]
    Unclosed,
}
