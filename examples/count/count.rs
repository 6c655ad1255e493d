#[derive(Logos)]
#[logos(skip r"[ \n]+")]
enum Word {
    #[regex("[a-z]+")]
    Small,
    #[regex("[A-Z][a-z]*")]
    Capital,
    #[regex("[0-9]+")]
    Number,
}
