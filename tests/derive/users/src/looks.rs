//! Conditions on what follows and on what is before.

use crate::texts;
use logos::Logos;

#[test]
fn the_end_of_the_input() {
    #[derive(Logos, Debug, PartialEq)]
    enum Token {
        #[regex("a$", priority = 3)]
        Last,
        #[token("a")]
        A,
    }
    use Token::{Last, A};
    assert_eq!(
        texts::<Token>("aaa"),
        [(Ok(A), "a"), (Ok(A), "a"), (Ok(Last), "a")]
    );
}

#[test]
fn the_end_of_the_input_alone() {
    #[derive(Logos, Debug, PartialEq)]
    enum Token {
        #[regex(r"[a-z]+\z")]
        Last,
        #[token(" ")]
        Blank,
    }
    use Token::{Blank, Last};
    assert_eq!(
        texts::<Token>("ab cd"),
        [(Err(()), "ab"), (Ok(Blank), " "), (Ok(Last), "cd")]
    );
}

#[test]
fn the_end_of_a_line() {
    #[derive(Logos, Debug, PartialEq)]
    enum Token {
        #[regex("(?m)[a-z]+$", priority = 3)]
        Last,
        #[regex("[a-z]+")]
        Word,
        #[regex("[ \n]")]
        Blank,
    }
    use Token::{Blank, Last, Word};
    assert_eq!(
        texts::<Token>("ab cd\nef"),
        [
            (Ok(Word), "ab"),
            (Ok(Blank), " "),
            (Ok(Last), "cd"),
            (Ok(Blank), "\n"),
            (Ok(Last), "ef"),
        ]
    );
}

#[test]
fn a_comment_up_to_the_end() {
    #[derive(Logos, Debug, PartialEq)]
    enum Token {
        #[regex(r"//[^\n]*(\n|$)", allow_greedy = true)]
        Comment,
        #[token("/")]
        Slash,
    }
    use Token::{Comment, Slash};
    assert_eq!(
        texts::<Token>("// a\n///"),
        [(Ok(Comment), "// a\n"), (Ok(Comment), "///")]
    );
    assert_eq!(texts::<Token>("/"), [(Ok(Slash), "/")]);
}

#[test]
fn a_word_boundary() {
    #[derive(Logos, Debug, PartialEq)]
    enum Token {
        #[regex(r"if(?-u:\b)")]
        If,
        #[regex("[a-z0-9]")]
        Letter,
    }
    use Token::{If, Letter};
    assert_eq!(texts::<Token>("if"), [(Ok(If), "if")]);
    assert_eq!(texts::<Token>("if!"), [(Ok(If), "if"), (Err(()), "!")]);
    assert_eq!(
        texts::<Token>("ifx"),
        [(Ok(Letter), "i"), (Ok(Letter), "f"), (Ok(Letter), "x")]
    );
    // An ASCII boundary takes no other character for a letter.
    assert_eq!(texts::<Token>("ifé"), [(Ok(If), "if"), (Err(()), "é")]);
}

#[test]
fn no_word_boundary() {
    #[derive(Logos, Debug, PartialEq)]
    enum Token {
        #[regex(r"0(?-u:\B)")]
        Leading,
        #[regex("[0-9]", priority = 1)]
        Digit,
    }
    use Token::{Digit, Leading};
    assert_eq!(
        texts::<Token>("0050"),
        [
            (Ok(Leading), "0"),
            (Ok(Leading), "0"),
            (Ok(Digit), "5"),
            (Ok(Digit), "0")
        ]
    );
}

#[test]
fn a_condition_in_the_middle() {
    #[derive(Logos, Debug, PartialEq)]
    enum Token {
        #[regex(r"a(?m:$)\nb")]
        TwoLines,
        #[regex(r"c\n(?m:^)d")]
        Also,
        #[regex(r"e(?-u:\b)f")]
        Never,
    }
    use Token::{Also, TwoLines};
    assert_eq!(
        texts::<Token>("a\nbc\nd"),
        [(Ok(TwoLines), "a\nb"), (Ok(Also), "c\nd")]
    );
    // No text follows `e` in which `f` is at a word boundary, so not even `e` can grow.
    assert_eq!(texts::<Token>("ef"), [(Err(()), "e"), (Err(()), "f")]);
}

#[test]
fn conditions_in_branches() {
    #[derive(Logos, Debug, PartialEq)]
    enum Token {
        #[regex(r"-?[0-9]+(\.[0-9]+|$)", priority = 3)]
        Number,
        #[regex("[0-9]")]
        Digit,
    }
    use Token::{Digit, Number};
    assert_eq!(
        texts::<Token>("1.5-2"),
        [(Ok(Number), "1.5"), (Ok(Number), "-2")]
    );
    assert_eq!(
        texts::<Token>("7!7"),
        [(Ok(Digit), "7"), (Err(()), "!"), (Ok(Number), "7")]
    );
}
