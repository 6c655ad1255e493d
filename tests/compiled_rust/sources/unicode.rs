#[logos(skip r"\s+")]
enum Words {
    #[regex(r"\p{Greek}+")]
    Greek,
    #[regex(r"\p{Cyrillic}+")]
    Cyrillic,
    #[regex(r"[\p{L}--[\p{Greek}\p{Cyrillic}]]+")]
    Other,
    #[regex(r"\d+")]
    Number,
    #[regex("(?i)straße!")]
    Street,
}
