use logos::Logos;

#[derive(Debug, Logos)]
#[logos(skip " ")]
pub enum Word {
    #[regex("[a-z]+")]
    Small,
}
