//! A log, a line at a time.

use logos::{Lexer, Logos};

#[derive(Clone, Copy, Debug, PartialEq)]
enum Level {
    Error,
    Warn,
    Info,
}

#[derive(Logos, Debug, PartialEq)]
enum Token<'s> {
    #[regex(r"[0-9]{4}-[0-9]{2}-[0-9]{2}T[0-9]{2}:[0-9]{2}:[0-9]{2}Z")]
    Time(&'s str),
    #[token(" ERROR ", |_| Level::Error)]
    #[token(" WARN ", |_| Level::Warn)]
    #[token(" INFO ", |_| Level::Info)]
    Level(Level),
    #[regex("[a-z_]+: ", |lexer| lexer.slice().trim_end_matches(": "))]
    Module(&'s str),
}

struct Entry<'s> {
    time: &'s str,
    level: Level,
    module: &'s str,
    message: &'s str,
}

/// Returns the entry of a line, if it has the form of one.
fn entry(line: &str) -> Option<Entry<'_>> {
    let mut lexer: Lexer<'_, Token<'_>> = Token::lexer(line);
    let Token::Time(time) = lexer.next()?.ok()? else { return None };
    let Token::Level(level) = lexer.next()?.ok()? else { return None };
    let Token::Module(module) = lexer.next()?.ok()? else { return None };
    Some(Entry { time, level, module, message: lexer.remainder() })
}

fn main() {
    let log = "2026-01-02T03:04:05Z INFO net: port 80 open
panicked at main.rs
2026-01-02T03:04:06Z ERROR disk_a: 2026-01-02 is full";
    for (number, line) in log.lines().enumerate() {
        match entry(line) {
            Some(Entry { time, level, module, message }) => {
                println!("{time} [{level:?}] {module}: {message}");
            }
            None => println!("line {} is no entry: {line}", number + 1),
        }
    }
}
