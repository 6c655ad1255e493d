//! Lexers in modules.

/// Outer.
pub mod outer {
    /// Inner.
    pub mod inner {
        use logos::Logos;

        /// Words and numbers.
        #[derive(Debug, Clone, Logos)]
        #[logos(skip(r"[ \n]+"))]
        pub enum Token {
            /// A word.
            #[regex("[a-z]+", |lex| lex.slice().len())]
            Word(usize),
            #[regex("[0-9]+")]
            Number,
        }

        impl Token {
            /// Returns whether it is a word.
            pub fn is_word(&self) -> bool {
                matches!(self, Token::Word(_))
            }
        }
    }
}

pub use outer::inner::Token;
