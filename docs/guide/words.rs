use logos::Logos;

/// Words, and what stands between them.
#[derive(Debug, Logos)]
pub enum Word {
    #[regex("[a-z]+")]
    Small,
    #[regex("[A-Z][a-z]*")]
    Capital,
    #[token(" ")]
    Space,
}

/// Returns the first word of a text.
pub fn first(text: &str) -> Option<Word> {
    Word::lexer(text).next()?.ok()
}
