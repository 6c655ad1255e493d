use logos::Logos;

#[derive(Logos)]
pub enum Word {
    #[regex("[a-z]*")]
    Small,
    #[regex]
    Capital,
}
