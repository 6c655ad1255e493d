//! How patterns are written.

use crate::texts;
use logos::Logos;

/// Asserts which parts of a text a pattern matches, where `|` parts the matches and what is between
/// them.
macro_rules! matches_of {
    ($pattern:literal, $text:literal, $($part:literal $matched:ident),* $(,)?) => {{
        #[derive(Logos, Debug, PartialEq)]
        enum Token {
            #[regex($pattern)]
            Match,
        }
        let found: Vec<_> = texts::<Token>($text).into_iter().map(|(item, text)| (text, item.is_ok())).collect();
        assert_eq!(found, [$(($part, matches_of!(@ $matched))),*]);
    }};
    (@ yes) => { true };
    (@ no) => { false };
}

#[test]
fn classes_and_ranges() {
    matches_of!("[a-cx_]+", "abcx_d", "abcx_" yes, "d" no);
}

#[test]
fn signs_in_classes() {
    matches_of!(r"[]\-^*+.]+", "]-^*+.[", "]-^*+." yes, "[" no);
    matches_of!("[a-]+", "a-b", "a-" yes, "b" no);
}

#[test]
fn negated_classes() {
    matches_of!("[^a-y\n]+", "zé\ny", "zé" yes, "\n" no, "y" no);
}

#[test]
fn intersections_of_classes() {
    matches_of!("[a-z&&[^aeiou]]+", "xyze", "xyz" yes, "e" no);
}

#[test]
fn differences_of_classes() {
    matches_of!("[0-9--4-6]+", "1374", "137" yes, "4" no);
    matches_of!("[a-d~~c-f]+", "abefc", "abef" yes, "c" no);
}

#[test]
fn classes_of_ascii() {
    matches_of!("[[:alpha:]_]+", "aZ_1", "aZ_" yes, "1" no);
    matches_of!("[[:^space:]]+", "a! \t", "a!" yes, " " no, "\t" no);
    matches_of!("[[:xdigit:]]+", "09afAFg", "09afAF" yes, "g" no);
}

#[test]
fn escapes_of_characters() {
    matches_of!(r"\x41\u00e9\U0001F600\x{7A}\u{df}", "Aé😀zß", "Aé😀zß" yes);
}

#[test]
fn escapes_of_controls() {
    matches_of!(r"\a\f\t\n\r\v", "\x07\x0C\t\n\r\x0B", "\x07\x0C\t\n\r\x0B" yes);
}

#[test]
fn escapes_of_signs() {
    matches_of!(r"\.\*\+\?\(\)\[\]\{\}\|\^\$\\\-", r".*+?()[]{}|^$\-", r".*+?()[]{}|^$\-" yes);
}

#[test]
fn groups_of_each_kind() {
    matches_of!("(a)(?:b)(?P<name>c)(?<other>d)", "abcdab", "abcd" yes, "ab" no);
}

#[test]
fn empty_branches() {
    matches_of!("a(b||c)d", "abdadacdaed", "abd" yes, "ad" yes, "acd" yes, "a" no, "e" no, "d" no);
}

#[test]
fn a_dot_is_no_line_feed() {
    matches_of!("a.b", "aébaxba\nb", "aéb" yes, "axb" yes, "a" no, "\n" no, "b" no);
}

#[test]
fn a_dot_with_the_flag_s() {
    matches_of!("(?s)a.b", "a\nb", "a\nb" yes);
}

#[test]
fn the_flag_that_swaps_greed() {
    matches_of!("(?U)a+", "aaa", "aaa" yes);
}

#[test]
fn nested_repetitions() {
    matches_of!("(a{2}b?){2,3}", "aabaaaabaaa", "aabaaaab" yes, "aaa" no);
}

#[test]
fn braces_and_brackets_that_are_not_special() {
    matches_of!("a}]", "a}]a", "a}]" yes, "a" no);
}
