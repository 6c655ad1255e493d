//! Inputs of other types than text and bytes, and the other functions that programs call.

use logos::source::Chunk;
use logos::{Lexer, Logos, Source};
use std::ops::Range;
use std::rc::Rc;

/// Any two bytes, from an input of the type `S`.
#[derive(Clone, Copy, Debug, PartialEq)]
struct Pair<S>(std::marker::PhantomData<S>);

impl<'s, S: Source + 's> Logos<'s> for Pair<S> {
    type Extras = u8;
    type Source = S;
    type Error = ();

    fn lex(lexer: &mut Lexer<'s, Self>) -> Option<Result<Self, ()>> {
        use logos::internal::LexerInternal;
        let start = lexer.offset();
        lexer.read::<u8>(start)?;
        if lexer.read::<&[u8; 2]>(start).is_none() {
            lexer.end_to_boundary(start + 1);
            return Some(Err(()));
        }
        lexer.end_to_boundary(start + 2);
        Some(Ok(Pair(std::marker::PhantomData)))
    }
}

/// Returns for each item whether it is a token, and its span.
fn items<S: Source>(source: S) -> Vec<(bool, Range<usize>)> {
    Pair::<S>::lexer(&source)
        .spanned()
        .map(|(item, span)| (item.is_ok(), span))
        .collect()
}

#[test]
fn what_dereferences_to_an_input_is_one() {
    assert_eq!(items("abé"), [(true, 0..2), (true, 2..4)]);
    assert_eq!(items(String::from("aéb")), [(true, 0..3), (false, 3..4)]);
    assert_eq!(items(Box::<str>::from("ab")), [(true, 0..2)]);
    assert_eq!(items(Rc::<str>::from("é")), [(true, 0..2)]);
    assert_eq!(items(b"a\xC3\xA9".to_vec()), [(true, 0..2), (false, 2..3)]);
    assert_eq!(
        items(Box::<[u8]>::from(*b"abc")),
        [(true, 0..2), (false, 2..3)]
    );
    assert_eq!(items::<&&[u8]>(&&b"ab"[..]), [(true, 0..2)]);
}

#[test]
fn parts_of_such_an_input_are_those_of_the_input() {
    let source = String::from("abcd");
    let mut lexer = Pair::lexer(&source);
    assert_eq!(lexer.next(), Some(Ok(Pair(std::marker::PhantomData))));
    let slice: &str = lexer.slice();
    assert_eq!(
        (slice, lexer.remainder(), lexer.source()),
        ("ab", "cd", &source)
    );
}

/// Digits of four bits each.
struct Nibbles(Vec<u8>);

impl Source for Nibbles {
    type Slice<'a> = Vec<u8>;

    fn len(&self) -> usize {
        self.0.len()
    }

    fn read<'a, C: Chunk<'a>>(&'a self, offset: usize) -> Option<C> {
        C::from_slice(self.0.get(offset..)?)
    }

    fn slice(&self, range: Range<usize>) -> Option<Vec<u8>> {
        self.0
            .get(range)
            .map(|digits| digits.iter().map(|digit| digit & 15).collect())
    }

    fn is_boundary(&self, index: usize) -> bool {
        index <= self.len() && index % 2 == 0
    }
}

#[test]
fn an_error_ends_where_a_source_of_the_program_says() {
    let source = Nibbles(vec![0x31, 0x32, 0x33]);
    assert_eq!(
        [1, 2, 9].map(|index| source.find_boundary(index)),
        [1, 2, 9]
    );
}

#[test]
fn a_type_of_the_program_is_an_input() {
    let source = Nibbles(vec![0x31, 0x32, 0x33, 0x34, 0x35]);
    let mut lexer = Pair::lexer(&source);
    assert!(matches!(lexer.next(), Some(Ok(_))));
    assert_eq!(
        (lexer.slice(), lexer.remainder()),
        (vec![1, 2], vec![3, 4, 5])
    );
    assert_eq!(
        lexer.map(|item| item.is_ok()).collect::<Vec<_>>(),
        [true, false]
    );
}

/// The same source with the two methods that the crate requires without `forbid_unsafe`.
#[cfg(not(feature = "forbid_unsafe"))]
#[test]
fn the_unsafe_methods_of_an_input_may_be_written() {
    struct Text(&'static str);

    impl Source for Text {
        type Slice<'a> = &'a str;

        fn len(&self) -> usize {
            self.0.len()
        }

        fn read<'a, C: Chunk<'a>>(&'a self, offset: usize) -> Option<C> {
            self.0.read(offset)
        }

        unsafe fn read_byte_unchecked(&self, offset: usize) -> u8 {
            self.0.as_bytes()[offset]
        }

        fn slice(&self, range: Range<usize>) -> Option<&str> {
            self.0.get(range)
        }

        unsafe fn slice_unchecked(&self, range: Range<usize>) -> &str {
            &self.0[range]
        }

        fn is_boundary(&self, index: usize) -> bool {
            self.0.is_char_boundary(index)
        }
    }

    assert_eq!(items(Text("abc")), [(true, 0..2), (false, 2..3)]);
}

#[test]
fn chunks_have_sizes() {
    assert_eq!((<u8 as Chunk>::SIZE, <&[u8; 8] as Chunk>::SIZE), (1, 8));
    assert_eq!("ab".read::<u8>(1), Some(b'b'));
    assert_eq!("ab".read::<u8>(2), None);
    assert_eq!("ab".read::<u8>(3), None);
    assert_eq!("abc".read::<&[u8; 2]>(1), Some(b"bc"));
    assert_eq!("abc".read::<&[u8; 2]>(2), None);
}

#[test]
fn skip_is_a_callback() {
    let source = String::from("ab");
    let mut lexer = Pair::<String>::lexer(&source);
    assert_eq!(logos::skip(&mut lexer), logos::Skip);
}

#[test]
fn lexers_show_their_input_and_extras() {
    let source = String::from("a\"b");
    let lexer = Pair::<String>::lexer_with_extras(&source, 7);
    assert_eq!(format!("{lexer:?}"), r#"{"source": "a\"b", "extras": 7}"#);
    assert_eq!(
        format!("{:?}", lexer.spanned()),
        r#"SpannedIter { lexer: {"source": "a\"b", "extras": 7} }"#
    );
}

#[test]
fn an_iterator_with_places_is_cloned_where_it_stands() {
    let source = String::from("abcdef");
    let mut iterator = Pair::<String>::lexer(&source).spanned().peekable();
    iterator.next();
    let spans: Vec<_> = iterator.clone().map(|(_, span)| span).collect();
    assert_eq!(spans, [2..4, 4..6]);
    assert_eq!(iterator.next().map(|(_, span)| span), Some(2..4));
}
