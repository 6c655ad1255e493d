enum Looks {
    #[regex("a(?-u:\\b)")]
    Whole,
    #[regex("a(?-u:\\B)")]
    Part,
    #[regex("(?m)b$")]
    LineEnd,
    #[regex("(?Rm)c$")]
    CrLfEnd,
    #[regex("dd\\z")]
    End,
    #[token("d")]
    D,
    #[regex("xa(?-u:\\b)-")]
    Dash,
    #[regex("[ \r\n]+")]
    Gap,
}
