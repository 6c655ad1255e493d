enum Jumps {
    #[regex("a*(b|cd)")]
    Jump,
}
