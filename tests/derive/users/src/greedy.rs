//! Dots that are repeated.

use crate::texts;
use logos::Logos;

#[test]
fn the_rest_of_a_line() {
    #[derive(Logos, Debug, PartialEq)]
    enum Token {
        #[regex("//.*", allow_greedy = true)]
        Comment,
        #[token("\n")]
        Line,
        #[token("/")]
        Slash,
    }
    use Token::{Comment, Line, Slash};
    assert_eq!(
        texts::<Token>("// a // b\n/\n//"),
        [
            (Ok(Comment), "// a // b"),
            (Ok(Line), "\n"),
            (Ok(Slash), "/"),
            (Ok(Line), "\n"),
            (Ok(Comment), "//"),
        ]
    );
}

#[test]
fn the_rest_of_the_input() {
    #[derive(Logos, Debug, PartialEq)]
    enum Token {
        #[regex("(?s)__END__.*", allow_greedy = true)]
        End,
        #[token("a")]
        A,
    }
    assert_eq!(
        texts::<Token>("a__END__\na\n"),
        [(Ok(Token::A), "a"), (Ok(Token::End), "__END__\na\n")]
    );
}

#[test]
fn up_to_the_last_quote() {
    #[derive(Logos, Debug, PartialEq)]
    enum Token {
        #[regex("'.+'", allow_greedy = true)]
        Quoted,
        #[token("\n")]
        Line,
    }
    use Token::{Line, Quoted};
    // Maximal munch: the match ends at the last quote of the line.
    assert_eq!(
        texts::<Token>("'a' 'b'\n'c'"),
        [
            (Ok(Quoted), "'a' 'b'"),
            (Ok(Line), "\n"),
            (Ok(Quoted), "'c'")
        ]
    );
}

#[test]
fn a_lazy_dot_matches_as_much() {
    #[derive(Logos, Debug, PartialEq)]
    enum Token {
        #[regex("'.*?'")]
        Quoted,
    }
    assert_eq!(texts::<Token>("'a' 'b'"), [(Ok(Token::Quoted), "'a' 'b'")]);
}

#[test]
fn a_dot_without_line_feed_by_a_class() {
    #[derive(Logos, Debug, PartialEq)]
    enum Token {
        #[regex("#[^\n]*", allow_greedy = true)]
        Comment,
        #[token("\n")]
        Line,
    }
    use Token::{Comment, Line};
    assert_eq!(
        texts::<Token>("#é\n#"),
        [(Ok(Comment), "#é"), (Ok(Line), "\n"), (Ok(Comment), "#")]
    );
}

#[test]
fn a_dot_a_number_of_times() {
    #[derive(Logos, Debug, PartialEq)]
    enum Token {
        #[regex("%.{2}")]
        Code,
        #[regex(".", priority = 1)]
        Any,
    }
    use Token::{Any, Code};
    assert_eq!(
        texts::<Token>("%é0%1"),
        [(Ok(Code), "%é0"), (Ok(Any), "%"), (Ok(Any), "1")]
    );
}

#[test]
fn a_dot_below_a_repetition() {
    #[derive(Logos, Debug, PartialEq)]
    enum Token {
        #[regex("(=.)+")]
        Pairs,
    }
    assert_eq!(
        texts::<Token>("=a==="),
        [(Ok(Token::Pairs), "=a=="), (Err(()), "=")]
    );
}
