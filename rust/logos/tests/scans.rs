//! `scan`, and parts of inputs. `tests/rust_text` has the tests of printed lexers.

mod tables;

use logos::{Logos, Scan};
use tables::{compare, items, text, ByBytes, ByClasses, ByHand};

#[test]
fn scanning_finds_what_the_lexer_does() {
    for n in 0..30 {
        let text = text(n * n * 9 % 9001, n as u64);
        let found = ByBytes::scan(&text).collect();
        compare(found, ByBytes::lexer(&text).spanned().collect());
        let found = ByClasses::scan(&text).collect();
        compare(found, ByClasses::lexer(&text).spanned().collect());
    }
}

#[test]
fn a_scanner_begins_where_its_lexer_is() {
    let text = text(9000, 5);
    for count in [0, 1, 10, 5000] {
        let mut lexer = ByBytes::lexer(&text);
        lexer.by_ref().take(count).for_each(drop);
        let wanted = lexer.clone().spanned().collect();
        compare(lexer.scan().collect(), wanted);
    }
}

#[test]
fn folding_a_part_ends_where_its_scanner_does() {
    let text = text(3000, 11);
    let (mut scanner, mut found) = (ByBytes::scan_part(&text), vec![]);
    ByBytes::scan_part(&text).for_each(|item| found.push(item));
    compare(found, scanner.by_ref().collect());
    assert!(scanner.next().is_none());
}

#[test]
fn a_clone_goes_on_by_itself() {
    let text = text(3000, 9);
    let mut scanner = ByBytes::scan_part(&text);
    scanner.by_ref().take(1000).for_each(drop);
    let mut other = scanner.clone();
    let wanted: Vec<_> = scanner.by_ref().collect();
    compare(other.by_ref().collect(), wanted);
    assert_eq!(other.remainder(), scanner.remainder());
    assert_eq!(
        format!("{:?}", ByBytes::scan("a")),
        "Scanner { lexer: {\"source\": \"a\", \"extras\": 0} }"
    );
}

#[test]
fn parts_have_the_items_of_the_whole() {
    for n in 0..100 {
        let text = text(n * 40, n as u64).replace('(', "");
        let (mut found, mut from, mut to, mut extras) = (vec![], 0, 0, 0);
        while to < text.len() {
            to = (to + 1 + n * 37 % 4500).min(text.len());
            while !text.is_char_boundary(to) {
                to += 1;
            }
            let lexer = ByBytes::lexer_with_extras(&text[from..to], extras);
            let mut scanner = if to == text.len() {
                lexer.scan()
            } else {
                lexer.scan_part()
            };
            for (item, span, extras) in items(&mut scanner) {
                found.push((item, from + span.start..from + span.end, extras));
            }
            from = to - scanner.remainder().len();
            extras = scanner.into_lexer().extras;
        }
        compare(found, items(&mut ByHand::lexer(&text)));
    }
}

#[test]
fn the_last_token_of_a_part_is_left() {
    let mut scanner = ByBytes::scan_part("one two 3.");
    assert_eq!(
        scanner.by_ref().map(|(_, span)| span).collect::<Vec<_>>(),
        [0..3, 4..7]
    );
    assert_eq!(scanner.remainder(), "3.");
    let mut scanner = ByBytes::scan_part("");
    assert_eq!((scanner.next(), scanner.remainder()), (None, ""));
    let mut lexer = ByBytes::scan_part("one two").into_lexer();
    assert_eq!(items(&mut lexer).len(), 2);
}
