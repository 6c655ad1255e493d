enum Letters {
    #[regex("[a-z]+")]
    Word,
}
