//! The methods of lexers.

use logos::{Lexer, Logos};
use std::panic::{AssertUnwindSafe, catch_unwind};

#[derive(Logos, Clone, Copy, Debug, PartialEq)]
#[logos(skip " ")]
enum Token {
    #[regex("[a-zà-ü]+")]
    Word,
    #[regex("[0-9]+")]
    Number,
    #[token("\"")]
    Quote,
}

use Token::{Number, Quote, Word};

#[derive(Logos, Clone, Copy, Debug, PartialEq)]
enum Inside {
    #[regex(r#"[^"\\]+"#)]
    Text,
    #[regex(r"\\.")]
    Escape,
    #[token("\"")]
    Quote,
}

#[test]
fn span_slice_and_remainder() {
    let mut lexer = Token::lexer("ab é1");
    assert_eq!(
        (lexer.span(), lexer.slice(), lexer.remainder()),
        (0..0, "", "ab é1")
    );
    assert_eq!(lexer.next(), Some(Ok(Word)));
    assert_eq!(
        (lexer.span(), lexer.slice(), lexer.remainder()),
        (0..2, "ab", " é1")
    );
    assert_eq!(lexer.next(), Some(Ok(Word)));
    assert_eq!(
        (lexer.span(), lexer.slice(), lexer.remainder()),
        (3..5, "é", "1")
    );
    assert_eq!(lexer.next(), Some(Ok(Number)));
    assert_eq!(
        (lexer.span(), lexer.slice(), lexer.remainder()),
        (5..6, "1", "")
    );
    assert_eq!(lexer.source(), "ab é1");
}

#[test]
fn a_bump_makes_the_token_longer() {
    let mut lexer = Token::lexer("ab!!c");
    assert_eq!(lexer.next(), Some(Ok(Word)));
    lexer.bump(2);
    assert_eq!(
        (lexer.slice(), lexer.span(), lexer.remainder()),
        ("ab!!", 0..4, "c")
    );
    lexer.bump(0);
    assert_eq!(lexer.slice(), "ab!!");
    assert_eq!(lexer.next(), Some(Ok(Word)));
    assert_eq!(lexer.slice(), "c");
}

#[test]
fn a_bump_before_the_first_token() {
    let mut lexer = Token::lexer("!!a");
    lexer.bump(2);
    assert_eq!(lexer.slice(), "!!");
    assert_eq!(lexer.next(), Some(Ok(Word)));
    assert_eq!(lexer.span(), 2..3);
}

#[test]
fn a_bump_to_the_end() {
    let mut lexer = Token::lexer("a b c");
    lexer.next();
    lexer.bump(lexer.remainder().len());
    assert_eq!(lexer.slice(), "a b c");
    assert_eq!(lexer.next(), None);
}

#[test]
#[should_panic(expected = "Invalid Lexer bump")]
fn a_bump_past_the_end() {
    let mut lexer = Token::lexer("ab");
    lexer.next();
    lexer.bump(1);
}

#[test]
#[should_panic(expected = "Invalid Lexer bump")]
fn a_bump_into_a_character() {
    let mut lexer = Token::lexer("1é");
    lexer.next();
    lexer.bump(1);
}

/// Also where the offset would wrap around.
#[test]
fn a_bump_that_panics_changes_nothing() {
    let mut lexer = Token::lexer("a1 é");
    lexer.next();
    for n in [3, 5, usize::MAX - 1, usize::MAX] {
        let bumped = catch_unwind(AssertUnwindSafe(|| lexer.bump(n)));
        assert!(bumped.is_err());
        assert_eq!(
            (lexer.span(), lexer.slice(), lexer.remainder()),
            (0..1, "a", "1 é")
        );
    }
    assert_eq!(lexer.next(), Some(Ok(Number)));
    assert_eq!(lexer.span(), 1..2);
}

#[test]
fn spanned_items() {
    let items: Vec<_> = Token::lexer("a 12 ?").spanned().collect();
    assert_eq!(
        items,
        [(Ok(Word), 0..1), (Ok(Number), 2..4), (Err(()), 5..6)]
    );
}

#[test]
fn spanned_items_give_the_lexer() {
    let mut spanned = Token::lexer("ab 1 2").spanned();
    assert_eq!(spanned.next(), Some((Ok(Word), 0..2)));
    assert_eq!((spanned.slice(), spanned.remainder()), ("ab", " 1 2"));
    spanned.bump(2);
    assert_eq!(spanned.next(), Some((Ok(Number), 5..6)));
}

#[test]
fn a_morph_and_back() {
    let mut outer = Token::lexer(r#"a "b 1\"" 7"#);
    assert_eq!(outer.next(), Some(Ok(Word)));
    assert_eq!(outer.next(), Some(Ok(Quote)));
    let mut inner = outer.morph::<Inside>();
    assert_eq!(inner.slice(), "\"");
    assert_eq!(inner.next(), Some(Ok(Inside::Text)));
    assert_eq!((inner.slice(), inner.span()), ("b 1", 3..6));
    assert_eq!(inner.next(), Some(Ok(Inside::Escape)));
    assert_eq!(inner.next(), Some(Ok(Inside::Quote)));
    let mut outer: Lexer<Token> = inner.morph();
    assert_eq!(outer.next(), Some(Ok(Number)));
    assert_eq!(outer.span(), 10..11);
    assert_eq!(outer.next(), None);
}

#[test]
fn extras_are_converted_by_a_morph() {
    #[derive(Default)]
    struct Short(u8);
    #[derive(Default)]
    struct Long(u64);
    impl From<Short> for Long {
        fn from(short: Short) -> Long {
            Long(u64::from(short.0) + 1)
        }
    }
    #[derive(Logos)]
    #[logos(extras = Short)]
    enum First {
        #[token("a", |lex| lex.extras.0 += 1)]
        A,
    }
    #[derive(Logos)]
    #[logos(extras = Long)]
    enum Second {
        #[token("b")]
        B,
    }
    let mut first = First::lexer("ab");
    assert!(matches!(first.next(), Some(Ok(First::A))));
    let mut second = first.morph::<Second>();
    assert!(matches!(second.next(), Some(Ok(Second::B))));
    assert_eq!(second.extras.0, 2);
}

#[test]
fn a_clone_goes_its_own_way() {
    let mut lexer = Token::lexer("a 1 b");
    lexer.next();
    let mut other = lexer.clone();
    assert_eq!(other.next(), Some(Ok(Number)));
    assert_eq!(other.next(), Some(Ok(Word)));
    assert_eq!((lexer.slice(), lexer.remainder()), ("a", " 1 b"));
    assert_eq!(lexer.next(), Some(Ok(Number)));
    let spanned = lexer.spanned();
    assert_eq!(spanned.clone().count(), 1);
    assert_eq!(spanned.count(), 1);
}

#[test]
fn a_clone_has_its_own_extras() {
    #[derive(Logos)]
    #[logos(extras = Vec<usize>)]
    enum Token {
        #[regex("[a-z]", |lex| { let at = lex.span().start; lex.extras.push(at); })]
        Letter,
    }
    let mut lexer = Token::lexer("abc");
    lexer.next();
    let mut other = lexer.clone();
    other.next();
    other.next();
    assert_eq!((lexer.extras, other.extras), (vec![0], vec![0, 1, 2]));
    let _ = Token::Letter;
}

#[test]
fn lexers_are_shown() {
    let mut lexer = Token::lexer("a 1");
    lexer.next();
    let text = format!("{lexer:?}");
    assert!(
        text.contains("source") && text.contains("\"a 1\"") && text.contains("extras"),
        "{text}"
    );
    assert!(format!("{:?}", lexer.spanned()).contains("\"a 1\""));
}

#[test]
fn a_lexer_with_one_token_of_lookahead() {
    let mut lexer = Token::lexer("1 2 a 3").peekable();
    let mut numbers = 0;
    while lexer.next_if_eq(&Ok(Number)).is_some() {
        numbers += 1;
    }
    assert_eq!((numbers, lexer.peek()), (2, Some(&Ok(Word))));
}

#[test]
fn lexers_are_sent_between_threads() {
    let lexer = Token::lexer("a 1 ?");
    let count = std::thread::scope(|scope| scope.spawn(move || lexer.count()).join().unwrap());
    assert_eq!(count, 3);
}

#[test]
fn inputs_that_own_their_text() {
    let text = String::from("a 1");
    assert_eq!(Token::lexer(&text).count(), 2);
    let boxed: Box<str> = "b".into();
    assert_eq!(Lexer::<Token>::new(&boxed).next(), Some(Ok(Word)));
    assert_eq!(
        Lexer::<Token>::with_extras("7", ()).next(),
        Some(Ok(Number))
    );
}

#[test]
fn slices_live_as_long_as_the_input() {
    let text = String::from("ab cd");
    let words: Vec<&str> = {
        let mut lexer = Token::lexer(&text);
        std::iter::from_fn(|| lexer.next().map(|_| lexer.slice())).collect()
    };
    assert_eq!(words, ["ab", "cd"]);
}
