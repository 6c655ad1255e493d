//! Letters in either case.

use crate::texts;
use logos::Logos;

#[test]
fn a_keyword_in_either_case() {
    #[derive(Logos, Debug, PartialEq)]
    #[logos(skip " ")]
    enum Token {
        #[token("select", ignore(case))]
        Select,
        #[regex("[a-z]+")]
        Name,
    }
    use Token::{Name, Select};
    assert_eq!(
        texts::<Token>("SELECT seLect select selec"),
        [
            (Ok(Select), "SELECT"),
            (Ok(Select), "seLect"),
            (Ok(Select), "select"),
            (Ok(Name), "selec"),
        ]
    );
}

#[test]
fn a_pattern_in_either_case() {
    #[derive(Logos, Debug, PartialEq)]
    enum Token {
        #[regex("0x[0-9a-f]+", ignore(case))]
        Hex,
        #[token("g")]
        G,
    }
    use Token::{Hex, G};
    assert_eq!(texts::<Token>("0XaFg"), [(Ok(Hex), "0XaF"), (Ok(G), "g")]);
}

#[test]
fn letters_beyond_ascii() {
    #[derive(Logos, Debug, PartialEq)]
    enum Token {
        #[token("élan", ignore(case))]
        Elan,
        #[regex("[α-ω]+", ignore(case))]
        Greek,
        #[token("σ!", ignore(case))]
        Sigma,
    }
    use Token::{Elan, Greek, Sigma};
    // Sigma has two small letters and one capital one.
    assert_eq!(
        texts::<Token>("ÉLANΔδς!"),
        [(Ok(Elan), "ÉLAN"), (Ok(Greek), "Δδς"), (Err(()), "!")]
    );
    assert_eq!(texts::<Token>("Σ!"), [(Ok(Sigma), "Σ!")]);
    assert_eq!(texts::<Token>("ς!"), [(Ok(Sigma), "ς!")]);
}

#[test]
fn the_sign_of_kelvin() {
    #[derive(Logos, Debug, PartialEq)]
    enum Token {
        #[token("k", ignore(case))]
        K,
        #[regex("s", ignore(case))]
        S,
    }
    assert_eq!(
        texts::<Token>("kK\u{212A}"),
        [
            (Ok(Token::K), "k"),
            (Ok(Token::K), "K"),
            (Ok(Token::K), "\u{212A}"),
        ]
    );
    assert_eq!(
        texts::<Token>("S\u{17F}"),
        [(Ok(Token::S), "S"), (Ok(Token::S), "\u{17F}")]
    );
}

#[test]
fn ascii_alone_in_bytes() {
    #[derive(Logos, Debug, PartialEq)]
    enum Token {
        #[token(b"k", ignore(case))]
        K,
    }
    assert_eq!(
        texts::<Token>("K\u{212A}"),
        [(Ok(Token::K), "K"), (Err(()), "\u{212A}")]
    );
}

#[test]
fn a_part_in_either_case() {
    #[derive(Logos, Debug, PartialEq)]
    enum Token {
        #[regex("(?i:ab)cd")]
        Part,
        #[regex("e(?i)f|g(?-i)h")]
        Rest,
    }
    use Token::{Part, Rest};
    assert_eq!(
        texts::<Token>("aBcdeFGhgh"),
        [
            (Ok(Part), "aBcd"),
            (Ok(Rest), "eF"),
            (Ok(Rest), "Gh"),
            (Ok(Rest), "gh"),
        ]
    );
    assert_eq!(texts::<Token>("EF"), [(Err(()), "E"), (Err(()), "F")]);
}

#[test]
fn a_priority_beside_it() {
    #[derive(Logos, Debug, PartialEq)]
    enum Token {
        #[token("x", priority = 3, ignore(case))]
        X,
        #[regex("[A-Z]")]
        Capital,
    }
    assert_eq!(
        texts::<Token>("XY"),
        [(Ok(Token::X), "X"), (Ok(Token::Capital), "Y")]
    );
}

#[test]
fn a_negated_class_is_folded_first() {
    #[derive(Logos, Debug, PartialEq)]
    enum Token {
        #[regex("[^a]", ignore(case))]
        NotA,
    }
    assert_eq!(
        texts::<Token>("bAa"),
        [(Ok(Token::NotA), "b"), (Err(()), "A"), (Err(()), "a")]
    );
}
