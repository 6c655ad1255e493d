//! Runs of small lexers that are written by hand.

use logos::internal::{CallbackResult, CallbackRetVal, LexerInternal, SkipRetVal};
use logos::{Filter, FilterResult, Lexer, Logos, Skip, Source};

/// Digits are numbers, blanks are skipped, and `extras` selects the action for letters. All other
/// bytes are errors.
#[derive(Clone, Copy, Debug, PartialEq)]
enum Word {
    Number(u32),
    Name,
}

#[derive(Clone, Debug, Default, PartialEq)]
struct Fault(usize);

impl From<std::num::ParseIntError> for Fault {
    fn from(_: std::num::ParseIntError) -> Fault {
        Fault(7)
    }
}

/// Returns the byte offset after the bytes from `from` on that pass the test.
fn past<'s, T: Logos<'s>>(lexer: &Lexer<'s, T>, from: usize, test: fn(&u8) -> bool) -> usize {
    let mut at = from;
    while let Some(byte) = lexer.read::<u8>(at) {
        if !test(&byte) {
            break;
        }
        at += 1;
    }
    at
}

impl<'s> Logos<'s> for Word {
    type Extras = usize;
    type Source = str;
    type Error = Fault;

    fn lex(lexer: &mut Lexer<'s, Self>) -> Option<Result<Self, Fault>> {
        loop {
            let start = lexer.offset();
            let byte = lexer.read::<u8>(start)?;
            let result = if byte.is_ascii_digit() {
                let end = past(lexer, start, u8::is_ascii_digit);
                lexer.end(end);
                CallbackRetVal::construct(lexer.slice().parse::<u32>(), Word::Number)
            } else if byte.is_ascii_alphabetic() {
                let end = past(lexer, start, u8::is_ascii_alphabetic);
                lexer.end(end);
                lexer.extras += 1;
                CallbackRetVal::construct(lexer.extras != 2, |()| Word::Name)
            } else if byte == b' ' {
                lexer.end(start + 1);
                <Skip as SkipRetVal<Word>>::construct(Skip).into()
            } else {
                lexer.end_to_boundary(start + 1);
                CallbackResult::Error(Fault(lexer.span().len()))
            };
            match result {
                CallbackResult::Emit(token) => return Some(Ok(token)),
                CallbackResult::Error(error) => return Some(Err(error)),
                CallbackResult::DefaultError => return Some(Err(Fault::default())),
                CallbackResult::Skip => lexer.trivia(),
            }
        }
    }
}

#[test]
fn items_have_places_and_texts() {
    let mut lexer = Word::lexer("ab 12 é");
    assert_eq!(lexer.next(), Some(Ok(Word::Name)));
    assert_eq!(
        (lexer.span(), lexer.slice(), lexer.remainder()),
        (0..2, "ab", " 12 é")
    );
    assert_eq!(lexer.next(), Some(Ok(Word::Number(12))));
    assert_eq!((lexer.span(), lexer.slice()), (3..5, "12"));
    assert_eq!(
        lexer.next(),
        Some(Err(Fault(2))),
        "an error ends between characters"
    );
    assert_eq!((lexer.span(), lexer.source()), (6..8, "ab 12 é"));
    assert_eq!(lexer.next(), None);
    assert_eq!(lexer.next(), None);
}

#[test]
fn callbacks_refuse_by_false_and_by_err() {
    let found: Vec<_> = Word::lexer("a b 99999999999 c").spanned().collect();
    let wanted = [
        (Ok(Word::Name), 0..1),
        (Err(Fault(0)), 2..3),
        (Err(Fault(7)), 4..15),
        (Ok(Word::Name), 16..17),
    ];
    assert_eq!(found, wanted);
}

#[test]
fn extras_are_given_and_kept() {
    let mut lexer = Word::lexer_with_extras("a b", 1);
    assert_eq!(lexer.next(), Some(Err(Fault(0))));
    assert_eq!(lexer.clone().extras, 2);
    assert_eq!(lexer.next(), Some(Ok(Word::Name)));
    assert_eq!(lexer.extras, 3);
}

#[test]
fn a_bump_lengthens_the_token() {
    let mut lexer = Word::lexer("ab.c");
    lexer.next();
    lexer.bump(1);
    assert_eq!(lexer.slice(), "ab.");
    assert_eq!(lexer.next(), Some(Err(Fault(0))));
    assert_eq!(lexer.span(), 3..4);
}

#[test]
#[should_panic(expected = "Invalid Lexer bump")]
fn a_bump_into_a_character_panics() {
    let mut lexer = Word::lexer("aé");
    lexer.next();
    lexer.bump(1);
}

#[test]
fn a_bump_that_panics_leaves_the_lexer_as_it_was() {
    for bytes in [1, 2, 3, usize::MAX, usize::MAX - 1, usize::MAX - 4] {
        let mut lexer = Word::lexer("aé");
        lexer.next();
        let bump = std::panic::AssertUnwindSafe(|| lexer.bump(bytes));
        assert_eq!(std::panic::catch_unwind(bump).is_ok(), bytes == 2);
        let end = if bytes == 2 { 3 } else { 1 };
        assert_eq!((lexer.span(), lexer.remainder()), (0..end, &"aé"[end..]));
    }
}

/// Any byte is a token.
#[derive(Debug, PartialEq)]
struct Byte;

impl<'s> Logos<'s> for Byte {
    type Extras = usize;
    type Source = str;
    type Error = ();

    fn lex(lexer: &mut Lexer<'s, Self>) -> Option<Result<Self, ()>> {
        lexer.read::<u8>(lexer.offset())?;
        lexer.end(lexer.offset() + 1);
        Some(Ok(Byte))
    }
}

#[test]
fn a_lexer_goes_on_as_another() {
    let mut words = Word::lexer("ab12");
    words.next();
    let mut bytes = words.morph::<Byte>();
    assert_eq!(bytes.next(), Some(Ok(Byte)));
    assert_eq!((bytes.slice(), bytes.extras), ("1", 1));
}

/// Returns the outcome of a match, as a word.
fn outcome(result: CallbackResult<'_, Word>) -> String {
    match result {
        CallbackResult::Emit(token) => format!("{token:?}"),
        CallbackResult::Error(error) => format!("{error:?}"),
        CallbackResult::DefaultError => "default".into(),
        CallbackResult::Skip => "skip".into(),
    }
}

/// Returns the outcome of a callback's answer for a token with a number.
fn number(answer: impl CallbackRetVal<'static, u32, Word>) -> String {
    outcome(answer.construct(Word::Number))
}

/// Returns the outcome of a callback's answer for a token without a value.
fn name(answer: impl CallbackRetVal<'static, (), Word>) -> String {
    outcome(answer.construct(|()| Word::Name))
}

/// Returns the outcome of the answer of a skip's callback.
fn skipped(answer: impl SkipRetVal<'static, Word>) -> String {
    outcome(answer.construct().into())
}

#[test]
fn each_answer_of_a_callback_has_its_outcome() {
    assert_eq!(number(3), "Number(3)");
    assert_eq!(number(Some(3)), "Number(3)");
    assert_eq!(number(None), "default");
    assert_eq!(number(Ok::<_, Fault>(3)), "Number(3)");
    assert_eq!(number(Err::<u32, _>(Fault(1))), "Fault(1)");
    assert_eq!(name(true), "Name");
    assert_eq!(name(false), "default");
    assert_eq!(name(Skip), "skip");
    assert_eq!(name(Err::<Skip, _>(Fault(1))), "Fault(1)");
    assert_eq!(number(Filter::Emit(3)), "Number(3)");
    assert_eq!(number(Filter::Skip), "skip");
    assert_eq!(number(FilterResult::<_, Fault>::Emit(3)), "Number(3)");
    assert_eq!(number(FilterResult::<u32, Fault>::Skip), "skip");
    assert_eq!(number(FilterResult::<u32, _>::Error(Fault(1))), "Fault(1)");
}

#[test]
fn each_answer_of_a_skip_has_its_outcome() {
    assert_eq!(skipped(()), "skip");
    assert_eq!(skipped(Skip), "skip");
    assert_eq!(skipped(Ok::<(), Fault>(())), "skip");
    assert_eq!(skipped(Err::<(), _>(Fault(1))), "Fault(1)");
    assert_eq!(skipped(Err::<Skip, _>(Fault(1))), "Fault(1)");
}

#[test]
fn texts_and_bytes_are_cut_where_they_can_be() {
    assert_eq!(Source::slice("aé", 0..1), Some("a"));
    assert_eq!(Source::slice("aé", 0..2), None);
    assert_eq!(Source::find_boundary("aé", 2), 3);
    assert_eq!(Source::find_boundary("aé", 9), 9);
    let bytes: &[u8] = b"\xC3\xA9";
    assert_eq!(Source::slice(bytes, 0..1), Some(&b"\xC3"[..]));
    assert_eq!(Source::find_boundary(bytes, 1), 1);
}
