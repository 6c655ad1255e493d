#[derive(logos::Logos)]
#[logos(skip " +")]
enum Code {
    #[token("add")]
    Add,
    #[regex("[a-z_]+")]
    Name,
    #[regex("[0-9a-f]+")]
    Hex,
}
