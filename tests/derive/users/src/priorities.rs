//! Which of several leaves has a text.

use crate::{items, texts};
use logos::Logos;

#[test]
fn a_token_before_a_pattern() {
    #[derive(Logos, Debug, PartialEq)]
    enum Token {
        #[regex("[a-z]+")]
        Name,
        #[token("if")]
        If,
    }
    use Token::{If, Name};
    // `if` has twice its bytes, which is 4; the pattern has 2.
    assert_eq!(items::<Token>("if"), [Ok(If)]);
    assert_eq!(items::<Token>("i"), [Ok(Name)]);
    assert_eq!(items::<Token>("iff"), [Ok(Name)]);
}

#[test]
fn the_order_does_not_matter() {
    #[derive(Logos, Debug, PartialEq)]
    enum Token {
        #[token("if")]
        If,
        #[regex("[a-z]+")]
        Name,
    }
    assert_eq!(items::<Token>("if"), [Ok(Token::If)]);
}

#[test]
fn length_before_priority() {
    #[derive(Logos, Debug, PartialEq)]
    enum Token {
        #[token("ab", priority = 1000)]
        Ab,
        #[regex("[a-z]+", priority = 1)]
        Name,
    }
    use Token::{Ab, Name};
    assert_eq!(texts::<Token>("abc"), [(Ok(Name), "abc")]);
    assert_eq!(texts::<Token>("ab"), [(Ok(Ab), "ab")]);
}

#[test]
fn a_pattern_above_a_token() {
    #[derive(Logos, Debug, PartialEq)]
    enum Token {
        #[token("true")]
        True,
        #[regex("[a-z]+", priority = 9)]
        Name,
    }
    // The token has 8.
    assert_eq!(items::<Token>("true"), [Ok(Token::Name)]);
}

#[test]
fn a_priority_of_zero() {
    // The name of the second variant is a beginning of that of the first.
    #[derive(Logos, Debug, PartialEq)]
    enum Token {
        #[regex(".", priority = 0)]
        Any,
        #[token("a", priority = 1)]
        A,
    }
    use Token::{Any, A};
    assert_eq!(items::<Token>("ba"), [Ok(Any), Ok(A)]);
}

#[test]
fn a_class_counts_as_one_character() {
    #[derive(Logos, Debug, PartialEq)]
    enum Token {
        #[regex("[0-9][0-9]")]
        Digits,
        #[regex("[0-9a-f]+")]
        Hex,
    }
    use Token::{Digits, Hex};
    // Two classes have 4, one or more have 2.
    assert_eq!(texts::<Token>("12"), [(Ok(Digits), "12")]);
    assert_eq!(texts::<Token>("1f"), [(Ok(Hex), "1f")]);
    assert_eq!(texts::<Token>("123"), [(Ok(Hex), "123")]);
}

#[test]
fn the_least_of_the_branches_counts() {
    #[derive(Logos, Debug, PartialEq)]
    enum Token {
        #[regex("a|bcde")]
        Branches,
        #[regex("[b-e]{3,}")]
        Letters,
    }
    use Token::{Branches, Letters};
    // The branches have 2, the letters 6.
    assert_eq!(texts::<Token>("bcde"), [(Ok(Letters), "bcde")]);
    assert_eq!(texts::<Token>("a"), [(Ok(Branches), "a")]);
}

#[test]
fn an_optional_part_counts_nothing() {
    #[derive(Logos, Debug, PartialEq)]
    enum Token {
        #[regex("ab(cde)?")]
        Maybe,
        #[regex("[a-e]{5}")]
        Five,
    }
    use Token::{Five, Maybe};
    assert_eq!(texts::<Token>("abcde"), [(Ok(Five), "abcde")]);
    assert_eq!(texts::<Token>("ab"), [(Ok(Maybe), "ab")]);
}

#[test]
fn characters_beside_bytes() {
    #[derive(Logos, Debug, PartialEq)]
    enum Token {
        #[token("é")]
        Token,
        #[regex("[é-ë]", priority = 3)]
        Class,
    }
    use Token::{Class, Token as Literal};
    // The token has twice its two bytes.
    assert_eq!(items::<Token>("éê"), [Ok(Literal), Ok(Class)]);
}

#[test]
fn a_skip_with_a_priority() {
    #[derive(Logos, Debug, PartialEq)]
    #[logos(skip("[a-z ]+", priority = 3))]
    enum Token {
        #[regex("[a-z]")]
        Letter,
        #[token("xy")]
        Xy,
    }
    assert_eq!(texts::<Token>("a b xy"), []);
    assert_eq!(texts::<Token>("xy"), [(Ok(Token::Xy), "xy")]);
}

#[test]
fn three_priorities_in_one_text() {
    #[derive(Logos, Debug, PartialEq)]
    enum Token {
        #[regex("[a-z]+", priority = 1)]
        Name,
        #[regex("[a-f]+", priority = 2)]
        Hex,
        #[regex("[a-b]+", priority = 3)]
        Binary,
    }
    use Token::{Binary, Hex, Name};
    assert_eq!(items::<Token>("abba"), [Ok(Binary)]);
    assert_eq!(items::<Token>("abbac"), [Ok(Hex)]);
    assert_eq!(items::<Token>("abbacz"), [Ok(Name)]);
}
