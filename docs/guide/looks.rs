enum Line {
    #[regex(r"[ \t]+(?m:$)", priority = 3)]
    LastBlanks,
    #[regex(r"[ \t]+")]
    Blanks,
    #[regex(r"(?-u:[a-z]+\b)")]
    Word,
    #[regex("[a-z0-9_]+", priority = 1)]
    Name,
    #[token("\n")]
    LineEnd,
}
