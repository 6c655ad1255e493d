enum T {
    #[token("abcd")]
    A,
    #[token("a")]
    B,
}
