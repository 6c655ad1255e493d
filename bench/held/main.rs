//! Measures the lexer in `rules.rs`, which `alias.rs` names `Rules`, on the file that the first
//! argument names, in pieces that end with lines and have at least as many bytes as the second one
//! says, or as a whole where that is 0. Each piece has a fresh lexer. It lexes the file three times
//! and until that took a tenth of a second. It prints the least seconds, the tokens and the errors,
//! the sum of the ends of both, and the sum of the numbers of the tokens' variants, from 1 on.
//!
//! A loop takes the items with their places; with `--cfg folded` it is `for_each`, and with `--cfg
//! parser` `next` is called from three places, as parsers do. With `--cfg ahead` a lexer of the
//! shape `tables` looks ahead everywhere, and with `--cfg plain` nowhere.

#![allow(warnings)]

mod rules;
include!("alias.rs");
use std::hash::{Hash, Hasher};

fn main() {
    let mut words = std::env::args().skip(1);
    let path = words.next().expect("a file");
    let least: usize = words.next().map_or(0, |word| word.parse().expect("a number"));
    let input: &'static [u8] = std::fs::read(path).expect("a file that can be read").leak();
    let text = <<Rules as logos::Logos>::Source as Read>::read(input);
    let (mut sums, mut seconds, mut spent, mut rounds) = (Sums::default(), f64::MAX, 0.0, 0);
    while rounds < 3 || spent < 0.1 {
        let start = std::time::Instant::now();
        sums = Sums::default();
        let mut to = 0;
        while to < input.len() {
            let from = to;
            to = if least == 0 { input.len() } else { (from + least - 1).min(input.len()) };
            to += input[to..].iter().position(|byte| *byte == b'\n').map_or(input.len() - to, |n| n + 1);
            let piece = text.part(from, to);
            let lexer = logos::Lexer::<Rules>::new(std::hint::black_box(piece));
            #[cfg(any(plain, ahead))]
            let lexer = logos::internal::looking(lexer, cfg!(ahead));
            let found = count(lexer);
            sums = Sums {
                tokens: sums.tokens + found.tokens,
                errors: sums.errors + found.errors,
                ends: sums.ends.wrapping_add(found.ends),
                leaves: sums.leaves.wrapping_add(found.leaves),
            };
        }
        let elapsed = start.elapsed().as_secs_f64();
        (spent, seconds, rounds) = (spent + elapsed, seconds.min(elapsed), rounds + 1);
    }
    let Sums { tokens, errors, ends, leaves } = sums;
    println!("{seconds:.9} {tokens} {errors} {ends} {leaves}");
}

/// What was found.
#[derive(Default)]
struct Sums {
    tokens: u64,
    errors: u64,
    ends: u64,
    leaves: u64,
}

impl Sums {
    #[inline(always)]
    fn add<Token, Error>(&mut self, item: Result<Token, Error>, end: usize) {
        match item {
            Ok(token) => {
                self.tokens += 1;
                let mut number = Number(1);
                std::mem::discriminant(&token).hash(&mut number);
                self.leaves = self.leaves.wrapping_add(number.0);
            }
            Err(_) => self.errors += 1,
        }
        self.ends = self.ends.wrapping_add(end as u64);
    }
}

/// Adds up what is hashed: so the hash of a variant is its number.
struct Number(u64);

impl Hasher for Number {
    fn finish(&self) -> u64 {
        self.0
    }

    fn write(&mut self, _: &[u8]) {}

    #[inline(always)]
    fn write_isize(&mut self, number: isize) {
        self.0 += number as u64;
    }
}

/// Returns what there is in a piece. It is a function of its own, so that the sums stay in
/// registers.
#[cfg(not(parser))]
#[inline(never)]
fn count(lexer: logos::Lexer<'static, Rules>) -> Sums {
    let mut sums = Sums::default();
    let items = lexer.spanned();
    #[cfg(folded)]
    items.for_each(|(item, span)| sums.add(item, span.end));
    #[cfg(not(folded))]
    for (item, span) in items {
        sums.add(item, span.end);
    }
    sums
}

#[cfg(parser)]
#[inline(never)]
fn count(mut lexer: logos::Lexer<'static, Rules>) -> Sums {
    let mut sums = Sums::default();
    while let Some(item) = lexer.next() {
        sums.add(item, lexer.span().end);
        // Every third item is taken elsewhere, and every seventh in a third place.
        if sums.tokens % 3 == 0 {
            let Some(item) = lexer.next() else { break };
            sums.add(item, lexer.span().end);
        }
        if sums.tokens % 7 == 0 {
            let Some(item) = lexer.next() else { break };
            sums.add(item, lexer.span().end);
        }
    }
    sums
}

/// An input, read once before the time is taken.
trait Read {
    fn read(bytes: &[u8]) -> &Self;
    fn part(&self, from: usize, to: usize) -> &Self;
}

impl Read for str {
    fn read(bytes: &[u8]) -> &str {
        std::str::from_utf8(bytes).expect("UTF-8")
    }

    fn part(&self, from: usize, to: usize) -> &str {
        &self[from..to]
    }
}

impl Read for [u8] {
    fn read(bytes: &[u8]) -> &[u8] {
        bytes
    }

    fn part(&self, from: usize, to: usize) -> &[u8] {
        &self[from..to]
    }
}
