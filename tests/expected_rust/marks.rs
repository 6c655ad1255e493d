enum Marks {
    #[regex("a$", priority = 3)]
    Last,
    #[token("a")]
    A,
}
