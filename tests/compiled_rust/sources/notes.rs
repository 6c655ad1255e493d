#[logos(extras = usize)]
#[logos(error(Fault, fault))]
#[logos(skip(r"[ \t]+"))]
#[logos(skip("\n", line))]
#[logos(skip(r"//[^\n]*", comment, allow_greedy = true, priority = 5))]
#[logos(skip("#[0-9]+", digits))]
#[logos(skip("#[a-z]*", callback = digits))]
#[logos(skip("¶", |lex| { paragraph(lex) }))]
enum Notes {
    #[token("yes", |_| true)]
    Yes,
    #[regex("no+", |_| false)]
    No,
    #[regex("[A-Z]", letter)]
    #[regex("[A-Z][A-Z]+", letter)]
    Letter(u8),
    #[regex("<[a-z]+>", tag)]
    #[regex("<>", tag)]
    Tag(usize),
    #[regex("~+", |_| logos::Skip)]
    Tilde,
    #[regex("[+]", sign)]
    #[regex("[-]", sign)]
    #[regex("[*]", sign)]
    Sign(char),
    #[token("é", accent)]
    #[regex("éé+", accent)]
    Accent,
    #[token("maybe")]
    Maybe,
}
