//! Lexers that look ahead by the rule, everywhere or nowhere, compared with a `lex` that is written
//! by hand.

mod tables;

use logos::internal::looking;
use logos::{Lexer, Logos};
use tables::{compare, items, other, text, ByBytes, ByClasses, ByHand, Item, Token};

/// Compares all items that lexers by tables find with those of the lexer by hand: by a loop, and by
/// `for_each`.
fn compare_all(text: &str, extras: usize) {
    let wanted = items(&mut ByHand::lexer_with_extras(text, extras));
    fn compare_both<'s, const STATES: usize>(
        lexer: impl Fn() -> Lexer<'s, Token<'s, STATES>>,
        wanted: &[Item<'s>],
    ) where
        Token<'s, STATES>: Logos<'s, Error = (), Extras = usize>,
    {
        compare(items(&mut lexer()), wanted.to_vec());
        let (mut found, places) = (vec![], wanted.iter().cloned());
        lexer()
            .spanned()
            .for_each(|(item, span)| found.push((item.map(Token::by_hand), span)));
        compare(found, places.map(|(item, span, _)| (item, span)).collect());
    }
    let by_bytes = || ByBytes::lexer_with_extras(text, extras);
    let by_classes = || ByClasses::lexer_with_extras(text, extras);
    compare_both(by_bytes, &wanted);
    compare_both(by_classes, &wanted);
    for everywhere in [true, false] {
        compare_both(|| looking(by_bytes(), everywhere), &wanted);
        compare_both(|| looking(by_classes(), everywhere), &wanted);
    }
}

#[test]
fn lexers_that_look_ahead_find_what_others_do() {
    for n in 0..50 {
        compare_all(&text(n * n * 9 % 9001, n as u64), 0);
    }
}

#[test]
fn long_runs_and_errors_are_found() {
    let texts = [
        "a".repeat(70_000),
        " ".repeat(70_000),
        "é".repeat(70_000),
        "1.".repeat(35_000),
        "a1".repeat(35_000),
    ];
    let all = texts.concat();
    for text in texts.iter().chain([&all]) {
        compare_all(text, 0);
    }
}

#[test]
fn a_callback_can_take_another_text() {
    let starts = [0, 300, 1500, 9000].map(|pieces| text(pieces, 7).replace('<', ""));
    // After a long run, match attempts find the items of some chunks.
    let runs = ["a".repeat(70_000), "a".repeat(90_000)];
    for start in starts.iter().chain(&runs) {
        // Nothing in front of the first `<` makes the extras 7.
        compare_all(&format!("{}<{}", start.replace('(', ""), text(3000, 8)), 7);
    }
    assert!(other().len() > 20_000);
}

/// A lexer by tables and the one by hand, which must be at the same offset.
struct Both<'s, const STATES: usize>
where
    Token<'s, STATES>: Logos<'s>,
{
    tables: Lexer<'s, Token<'s, STATES>>,
    by_hand: Lexer<'s, ByHand<'s>>,
}

impl<'s, const STATES: usize> Both<'s, STATES>
where
    Token<'s, STATES>: Logos<'s, Error = (), Extras = usize, Source = str>,
{
    /// Takes an item of both, and returns whether there was one.
    fn next(&mut self) -> bool {
        let item = self.tables.next().map(|item| item.map(Token::by_hand));
        assert_eq!(item, self.by_hand.next());
        self.compare();
        item.is_some()
    }

    fn compare(&self) {
        let Both { tables, by_hand } = self;
        assert_eq!(tables.span(), by_hand.span());
        assert_eq!(tables.slice(), by_hand.slice());
        assert_eq!(tables.remainder(), by_hand.remainder());
        assert_eq!(tables.extras, by_hand.extras);
    }

    fn bump(&mut self, bytes: usize) {
        if self.by_hand.remainder().is_char_boundary(bytes) {
            self.tables.bump(bytes);
            self.by_hand.bump(bytes);
        }
        self.compare();
    }

    fn clone(&self) -> Self {
        Both {
            tables: self.tables.clone(),
            by_hand: self.by_hand.clone(),
        }
    }

    /// Takes some items of clones.
    fn peek(&self, count: usize) {
        let mut clones = self.clone();
        clones.compare();
        let _ = (0..count).all(|_| clones.next());
    }
}

impl<'s> Both<'s, 20> {
    /// Continues with another lexer for some items, and returns to the first one.
    fn morph(self, count: usize) -> Self {
        let mut others = Both {
            tables: self.tables.morph::<ByClasses>(),
            by_hand: self.by_hand,
        };
        others.compare();
        let _ = (0..count).all(|_| others.next());
        let both = Both {
            tables: others.tables.morph(),
            by_hand: others.by_hand,
        };
        both.compare();
        both
    }
}

/// Moves lexers at the offsets that a seed determines, up to their end.
fn move_along(mut both: Both<'_, 20>, seed: u64) {
    let mut state = seed;
    while both.next() {
        state = state
            .wrapping_mul(6364136223846793005)
            .wrapping_add(1442695040888963407);
        let bytes = [0, 1, 2, 64, 700, 5000][(state >> 40) as usize % 6];
        match (state >> 33) % 60 {
            0 => both.bump(bytes),
            1 => both.peek(bytes),
            2 => {
                both.tables.extras += 3;
                both.by_hand.extras += 3;
            }
            3 => both = both.morph(bytes % 999),
            4 => both = both.clone(),
            _ => {}
        }
    }
    assert!(!both.next());
}

#[test]
fn lexers_that_are_moved_go_on_as_others_do() {
    for seed in 1..10 {
        let text = text(6000 + 1000 * seed, seed as u64);
        let lexers = [
            ByBytes::lexer(&text),
            looking(ByBytes::lexer(&text), true),
            looking(ByBytes::lexer(&text), false),
        ];
        for tables in lexers {
            let by_hand = ByHand::lexer(&text);
            move_along(Both { tables, by_hand }, seed as u64);
        }
    }
}

#[test]
fn each_token_can_be_bumped() {
    let text = text(9000, 6);
    for everywhere in [true, false] {
        let mut both = Both {
            tables: looking(ByClasses::lexer(&text), everywhere),
            by_hand: ByHand::lexer(&text),
        };
        while both.next() {
            both.bump(1);
        }
    }
}

#[test]
fn folding_goes_on_where_a_lexer_is() {
    let text = [text(3000, 10), "a ".repeat(20_000), "a".repeat(70_000)].concat();
    let wanted: Vec<_> = ByHand::lexer(&text).collect();
    for count in (0..wanted.len()).step_by(4999) {
        let (mut lexer, mut found) = (ByBytes::lexer(&text), vec![]);
        lexer.by_ref().take(count).for_each(drop);
        lexer.for_each(|item| found.push(item.map(Token::by_hand)));
        compare(found, wanted[count..].to_vec());
    }
}
