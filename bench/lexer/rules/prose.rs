#[derive(Logos)]
#[logos(skip r"\s+")]
enum Prose {
    #[regex(r"\p{L}[\p{L}\p{M}]*")]
    Word,
    #[regex(r"\p{N}+")]
    Number,
    #[regex(r"\p{P}")]
    Punctuation,
}
