use logos::Logos;

#[derive(Logos)]
#[logos(skip " ")]
enum Right {
    #[regex("[a-z]+")]
    Word,
    #[token("+")]
    Plus,
}

const AFTER: u8 = 1;
