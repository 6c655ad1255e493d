/// The tokens of a small language.
#[derive(Logos, Debug, Clone, Copy, PartialEq)]
#[logos(skip r"[ \t\r\n\f]+", error = LexingError, extras = Position)]
#[logos(subpattern digits = r"[0-9](_?[0-9])*")]
pub enum Token<'source> {
    #[token("fn", priority = 20)]
    #[token("function", priority = 20)]
    Function,

    #[token("->", |lexer| lexer.span().start + 1)]
    Arrow(usize),

    // Names begin with a letter, and go on with letters and digits.
    #[regex(r"[\p{XID_Start}_]\p{XID_Continue}*", |lexer| lexer.slice(), priority = 3)]
    Name(&'source str),

    #[regex("(?&digits)\\.(?&digits)", callback = number, ignore(case))]
    #[regex(r#""([^"\\]|\\["\\bnfrt]|u[a-fA-F0-9]{4})*""#, allow_greedy = true)]
    Literal { value: f64, bits: [u8; 0x1F_usize], is_exact: bool },

    /* A block comment, /* with one inside it. */ */
    #[regex(r"/\*([^*]|\*[^/])*\*/", logos::skip)]
    #[token(b"\n\x0D", end_of_line), token('\u{2028}')]
    End = 1_000,
}

