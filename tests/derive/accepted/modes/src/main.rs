//! Two lexers in turn, in modules of their own.

mod outer {
    use logos::Logos;

    #[derive(Logos, Clone, Debug, PartialEq)]
    pub enum Token {
        #[regex("[^{\"]+")]
        Text,
        #[token("{")]
        Open,
        #[token("\"")]
        Quote,
    }
}

mod inner {
    pub(crate) mod tokens {
        use super::super::Depth;
        use logos::{Lexer, Logos};

        #[derive(Logos, Clone, Debug, PartialEq)]
        #[logos(extras = Depth, skip "[ \n]+")]
        pub(in crate::inner) enum Token {
            #[regex("[a-z]+", |lex| lex.slice().to_uppercase())]
            Name(String),
            #[token("{", super::deeper)]
            Open,
            #[token("}", super::higher)]
            Close,
        }

        pub(in crate::inner) type Run<'s> = Lexer<'s, Token>;
    }

    use tokens::{Run, Token};

    fn deeper(lex: &mut Run) {
        lex.extras.0 += 1;
    }

    fn higher(lex: &mut Run) -> bool {
        lex.extras.0 = lex.extras.0.saturating_sub(1);
        true
    }

    /// Reads to the brace that closes the first one.
    pub fn read<'s>(outer: logos::Lexer<'s, super::outer::Token>) -> logos::Lexer<'s, super::outer::Token> {
        let mut run: Run<'s> = outer.morph();
        run.extras = super::Depth(1);
        while run.extras.0 > 0 {
            match run.next() {
                Some(Ok(Token::Name(name))) => println!("{:?} name {name}", run.span()),
                Some(item) => println!("{:?} {item:?}", run.span()),
                None => break,
            }
        }
        run.morph()
    }
}

/// How many braces are open.
#[derive(Clone, Copy, Debug, Default, PartialEq)]
struct Depth(usize);

impl From<()> for Depth {
    fn from(_: ()) -> Depth {
        Depth(0)
    }
}

impl From<Depth> for () {
    fn from(_: Depth) {}
}

fn main() {
    use logos::Logos;

    let mut lexer = outer::Token::lexer("a {b {c}\n} d \"{e");
    while let Some(item) = lexer.next() {
        println!("{:?} {item:?}", lexer.span());
        if item == Ok(outer::Token::Open) {
            lexer = inner::read(lexer);
        }
    }
}
