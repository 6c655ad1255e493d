enum Letters {
    #[regex("[a-z]+")]
    Lower,
    #[regex("[A-Z][a-z]*!")]
    Called,
    #[regex("(?-u:[\\x00-\\x08\\x0B-\\x1F])")]
    Control,
}
