#[derive(Logos)]
enum Text {
    #[regex("\"x[a-zé]\"!")]
    Short,
    #[token("\"y")]
    Other,
}
