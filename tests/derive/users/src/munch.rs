//! The longest match, matches that are left behind, and where errors end.

use crate::{found, texts};
use logos::Logos;

#[test]
fn the_longest_match_is_taken() {
    #[derive(Logos, Debug, PartialEq)]
    enum Token {
        #[token("<")]
        Less,
        #[token("<<")]
        Shift,
        #[token("<<=")]
        Assign,
    }
    use Token::{Assign, Less, Shift};
    let wanted = [(Ok(Assign), 0..3), (Ok(Shift), 3..5), (Ok(Less), 5..6)];
    assert_eq!(found::<Token>("<<=<<<"), wanted);
}

#[test]
fn back_to_the_last_match() {
    #[derive(Logos, Debug, PartialEq)]
    enum Token {
        #[token("x")]
        X,
        #[token("xyzw")]
        Long,
    }
    use Token::{Long, X};
    let wanted = [
        (Ok(X), "x"),
        (Err(()), "y"),
        (Err(()), "z"),
        (Ok(Long), "xyzw"),
    ];
    assert_eq!(texts::<Token>("xyzxyzw"), wanted);
}

#[test]
fn back_over_several_matches() {
    #[derive(Logos, Debug, PartialEq)]
    enum Token {
        #[regex("[0-9]+")]
        Integer,
        #[regex(r"[0-9]+\.[0-9]+")]
        Decimal,
        #[regex(r"[0-9]+\.[0-9]+e[0-9]+")]
        Scientific,
        #[token(".")]
        Dot,
        #[token("e")]
        E,
    }
    use Token::{Decimal, Dot, Integer, Scientific, E};
    assert_eq!(texts::<Token>("1.5e"), [(Ok(Decimal), "1.5"), (Ok(E), "e")]);
    assert_eq!(
        texts::<Token>("1.e"),
        [(Ok(Integer), "1"), (Ok(Dot), "."), (Ok(E), "e")]
    );
    assert_eq!(
        texts::<Token>("1.5e6.7"),
        [
            (Ok(Scientific), "1.5e6"),
            (Ok(Dot), "."),
            (Ok(Integer), "7"),
        ]
    );
}

#[test]
fn an_error_covers_what_could_grow() {
    #[derive(Logos, Debug, PartialEq)]
    enum Token {
        #[regex("ab*c")]
        Abc,
        #[token("d")]
        D,
    }
    use Token::{Abc, D};
    assert_eq!(texts::<Token>("abbbd"), [(Err(()), "abbb"), (Ok(D), "d")]);
    assert_eq!(texts::<Token>("abbb"), [(Err(()), "abbb")]);
    assert_eq!(texts::<Token>("aabc"), [(Err(()), "a"), (Ok(Abc), "abc")]);
}

#[test]
fn an_error_of_one_character() {
    #[derive(Logos, Debug, PartialEq)]
    enum Token {
        #[token("ab")]
        Ab,
    }
    assert_eq!(
        texts::<Token>("zzab"),
        [(Err(()), "z"), (Err(()), "z"), (Ok(Token::Ab), "ab")]
    );
    assert_eq!(
        texts::<Token>("𝄞ab"),
        [(Err(()), "𝄞"), (Ok(Token::Ab), "ab")]
    );
}

#[test]
fn an_error_ends_between_characters() {
    #[derive(Logos, Debug, PartialEq)]
    enum Token {
        #[token("ü!")]
        Mark,
    }
    // The first byte of `ú` is that of `ü`.
    assert_eq!(
        texts::<Token>("úü!ü"),
        [(Err(()), "ú"), (Ok(Token::Mark), "ü!"), (Err(()), "ü")]
    );
}

#[test]
fn a_loop_in_a_loop() {
    #[derive(Logos, Debug, PartialEq)]
    enum Token {
        #[regex("(a+b)+c")]
        Block,
        #[token("a")]
        A,
    }
    use Token::{Block, A};
    assert_eq!(texts::<Token>("aabababc"), [(Ok(Block), "aabababc")]);
    assert_eq!(
        texts::<Token>("aab"),
        [(Ok(A), "a"), (Ok(A), "a"), (Err(()), "b")]
    );
}

#[test]
fn an_optional_end() {
    #[derive(Logos, Debug, PartialEq)]
    enum Token {
        #[regex("c(at)?")]
        Cat,
        #[token("a")]
        A,
    }
    use Token::{Cat, A};
    assert_eq!(
        texts::<Token>("catcac"),
        [
            (Ok(Cat), "cat"),
            (Ok(Cat), "c"),
            (Ok(A), "a"),
            (Ok(Cat), "c")
        ]
    );
}

#[test]
fn counted_repetitions() {
    #[derive(Logos, Debug, PartialEq)]
    enum Token {
        #[regex("a{2,3}")]
        Few,
        #[regex("b{3}")]
        Three,
        #[regex("c{2,}")]
        Many,
    }
    use Token::{Few, Many, Three};
    assert_eq!(texts::<Token>("aaaaa"), [(Ok(Few), "aaa"), (Ok(Few), "aa")]);
    assert_eq!(texts::<Token>("aaaa"), [(Ok(Few), "aaa"), (Err(()), "a")]);
    assert_eq!(
        texts::<Token>("bbbbb"),
        [(Ok(Three), "bbb"), (Err(()), "bb")]
    );
    assert_eq!(
        texts::<Token>("ccccac"),
        [(Ok(Many), "cccc"), (Err(()), "a"), (Err(()), "c")]
    );
}

#[test]
fn alternatives_of_any_order() {
    #[derive(Logos, Debug, PartialEq)]
    enum Token {
        #[regex("in|int|integer")]
        Type,
    }
    assert_eq!(
        texts::<Token>("integerintin"),
        [
            (Ok(Token::Type), "integer"),
            (Ok(Token::Type), "int"),
            (Ok(Token::Type), "in"),
        ]
    );
    assert_eq!(
        texts::<Token>("integ"),
        [(Ok(Token::Type), "int"), (Err(()), "e"), (Err(()), "g")]
    );
}

#[test]
fn lazy_operators_match_as_much() {
    #[derive(Logos, Debug, PartialEq)]
    enum Token {
        #[regex("x+?")]
        Xs,
        #[regex("y{1,3}?")]
        Ys,
    }
    use Token::{Xs, Ys};
    assert_eq!(
        texts::<Token>("xxxyyyy"),
        [(Ok(Xs), "xxx"), (Ok(Ys), "yyy"), (Ok(Ys), "y")]
    );
}

#[test]
fn a_comment_that_is_not_closed() {
    #[derive(Logos, Debug, PartialEq)]
    #[logos(skip " ")]
    enum Token {
        #[regex(r"/\*([^*]|\*+[^*/])*\*+/")]
        Comment,
        #[token("/")]
        Slash,
        #[token("*")]
        Star,
        #[regex("[a-z]+")]
        Word,
    }
    use Token::{Comment, Slash, Star, Word};
    assert_eq!(
        texts::<Token>("/***/ /* a * b **/ c"),
        [
            (Ok(Comment), "/***/"),
            (Ok(Comment), "/* a * b **/"),
            (Ok(Word), "c"),
        ]
    );
    assert_eq!(
        texts::<Token>("/* a"),
        [(Ok(Slash), "/"), (Ok(Star), "*"), (Ok(Word), "a")]
    );
}

#[test]
fn two_patterns_with_a_common_beginning() {
    #[derive(Logos, Debug, PartialEq)]
    enum Token {
        #[regex("a+b")]
        EndsInB,
        #[regex("a+c")]
        EndsInC,
        #[regex("aa")]
        Two,
    }
    use Token::{EndsInB, EndsInC, Two};
    assert_eq!(
        texts::<Token>("aaabaacaaa"),
        [
            (Ok(EndsInB), "aaab"),
            (Ok(EndsInC), "aac"),
            (Ok(Two), "aa"),
            (Err(()), "a"),
        ]
    );
}

#[test]
fn a_keyword_table() {
    #[derive(Logos, Debug, PartialEq)]
    enum Token {
        #[token("do")]
        Do,
        #[token("done")]
        Done,
        #[token("double")]
        Double,
        #[regex("[a-z_]+")]
        Name,
        #[token(" ")]
        Blank,
    }
    use Token::{Blank, Do, Done, Double, Name};
    assert_eq!(
        texts::<Token>("do don done dones double doubl"),
        [
            (Ok(Do), "do"),
            (Ok(Blank), " "),
            (Ok(Name), "don"),
            (Ok(Blank), " "),
            (Ok(Done), "done"),
            (Ok(Blank), " "),
            (Ok(Name), "dones"),
            (Ok(Blank), " "),
            (Ok(Double), "double"),
            (Ok(Blank), " "),
            (Ok(Name), "doubl"),
        ]
    );
}
