//! Measures the lexer that the text beside this file says: `rules.rs` is the enum without its
//! attributes, `lexer.rs` the text. Lexes the file that the first argument names, as often as the
//! second one says, and prints the seconds, and the tokens and errors of one time. Without it, it
//! lexes three times and until that took a quarter of a second, and prints the least seconds.

#![allow(warnings)]

include!("rules.rs");
include!("lexer.rs");

fn main() {
    let path = std::env::args().nth(1).expect("a file");
    let times = std::env::args().nth(2).map(|word| word.parse().expect("a number"));
    let most = if times.is_some() { 1 } else { 1000 };
    let input = std::fs::read(path).expect("a file that can be read");
    let source = <<Rules as logos::Logos>::Source as Read>::read(&input);
    let (mut tokens, mut errors, mut seconds, mut spent) = (0, 0, f64::MAX, 0.0);
    for round in 0..most {
        if round >= 3 && spent >= 0.25 {
            break;
        }
        let start = std::time::Instant::now();
        for _ in 0..times.unwrap_or(1) {
            (tokens, errors) = count(logos::Lexer::<Rules>::new(std::hint::black_box(source)));
        }
        let elapsed = start.elapsed().as_secs_f64();
        spent += elapsed;
        seconds = seconds.min(elapsed);
    }
    println!("{seconds:.6} {tokens} {errors}");
}

/// Returns how many tokens and errors there are. It is a function of its own, so that the counts
/// stay in registers.
#[inline(never)]
fn count<Error>(items: impl Iterator<Item = Result<Rules, Error>>) -> (u64, u64) {
    let (mut tokens, mut errors) = (0, 0);
    for item in items {
        match item {
            Ok(_) => tokens += 1,
            Err(_) => errors += 1,
        }
    }
    (tokens, errors)
}

/// What the rules with a callback call: a match is refused if it has more than 127 bytes.
fn is_short<'s>(lexer: &mut logos::Lexer<'s, Rules>) -> bool
where
    Rules: logos::Logos<'s>,
{
    lexer.span().len() <= 127
}

trait Read {
    fn read(bytes: &[u8]) -> &Self;
}

impl Read for str {
    fn read(bytes: &[u8]) -> &str {
        std::str::from_utf8(bytes).expect("UTF-8")
    }
}

impl Read for [u8] {
    fn read(bytes: &[u8]) -> &[u8] {
        bytes
    }
}
