//! Enums that macros write: names, literals, types, paths, expressions and `$crate`.

#![allow(dead_code)]

use logos::Logos;

macro_rules! keywords {
    ($(#[$meta:meta])* $visibility:vis $name:ident { $($variant:ident = $text:literal),* $(,)? } else $other:ident($pattern:literal)) => {
        $(#[$meta])*
        #[derive(Logos)]
        $visibility enum $name {
            $(#[token($text)] $variant,)*
            #[regex($pattern, priority = 1)]
            $other,
        }

        impl $name {
            fn text(&self) -> Option<&'static str> {
                match self {
                    $($name::$variant => Some($text),)*
                    $name::$other => None,
                }
            }
        }
    };
}

keywords! {
    /// The words of a language.
    #[derive(Debug, PartialEq)]
    pub(crate) Keyword { If = "if", Else = "else", While = r"while" } else Name("[a-z]+")
}

macro_rules! number {
    ($name:ident, $type:ty, $pattern:literal, $radix:expr, $from:tt) => {
        #[derive(Logos, Debug)]
        #[logos(skip " +")]
        enum $name {
            #[regex($pattern, |lex| <$type>::from_str_radix(&lex.slice()[$from..], $radix).ok())]
            Value($type),
            #[token("+", $crate::sign)]
            Sign(i8),
            #[token("-", |lex| -$crate::sign(lex))]
            Minus(i8),
        }
    };
}

fn sign<'s, T: Logos<'s>>(_: &mut logos::Lexer<'s, T>) -> i8 {
    1
}

number!(Hex, u16, "0x[0-9a-f]+", 8 + 8, 2);
number!(Decimal, i64, "[0-9]+", 10, 0);

macro_rules! lexer {
    ($name:ident, $extras:ty, $error:path, $callback:path, $priority:literal) => {
        #[derive(Logos, Debug)]
        #[logos(extras = $extras, error = $error)]
        enum $name {
            #[regex("[a-z]", $callback, priority = $priority)]
            Letter,
            #[regex("[a-c]")]
            Early,
        }
    };
}

mod own {
    #[derive(Clone, Debug, Default, PartialEq)]
    pub struct Fault;

    pub fn count<'s, T: logos::Logos<'s, Extras = Vec<usize>>>(lex: &mut logos::Lexer<'s, T>) {
        let at = lex.span().start;
        lex.extras.push(at);
    }
}

lexer!(Letters, Vec<usize>, own::Fault, own::count, 3);

fn main() {
    for item in Keyword::lexer("ifelsewhile") {
        println!("{item:?}");
    }
    for text in ["if", "else", "while", "iffy"] {
        let item = Keyword::lexer(text).next();
        println!("{item:?} {:?}", item.as_ref().and_then(|item| item.as_ref().ok()?.text()));
    }
    println!("{:?}", Hex::lexer("0xff + -0x10000").collect::<Vec<_>>());
    println!("{:?}", Decimal::lexer("12 -").collect::<Vec<_>>());
    let mut letters = Letters::lexer("az?");
    println!("{:?} {:?}", letters.by_ref().collect::<Vec<_>>(), letters.extras);
}
