/// Tokens of a small language for settings.
#[derive(Logos, Clone, Debug, PartialEq)]
#[logos(
    crate = lexing::logos,
    utf8 = true,
    extras = Lines,
    error(ReadError<'s>, ReadError::of),
    export_dir = "charts/",
    skip r"[ \t\r]+",
    skip("\n", |lex| lex.extras.next_line()),
    skip(r"//[^\n]*", allow_greedy = true, priority = 5),
    subpattern digits = "[0-9](_?[0-9])*",
    subpattern name = r"[\p{L}_][\p{L}\p{Nd}_]*",
    type N = i64,
)]
pub enum Setting<'a, N> {
    /// The title of a section.
    #[regex(r"\[(?&name)\]", title)]
    Section(&'a str),

    #[regex("(?&name)", |lex| lex.slice())]
    Name(&'a str),

    #[token("true", |_| true)]
    #[token("false", callback = |_| false)]
    Truth(bool),

    #[token("include", ignore(case))]
    Include,

    #[regex("-?(?&digits)", |lex| lex.slice().parse().ok(), priority = 6)]
    Number(N),

    #[regex(r#""([^"\\\n]|\\.)*""#, unquoted)]
    Text(&'a str),

    #[token("=")]
    Is,
}
