//! Changes of sources, by their grammar and by their bytes, and of inputs.

use crate::check::Case;
use crate::grammar;
use crate::random::Random;
use logos_codegen::generate;
use logos_codegen::generator::Config;
use rattle_std::alloc::Global;

/// Words of sources.
const WORDS: [&str; 40] = [
    "#[token(\"a\")]",
    "#[regex(\"a+\")]",
    "#[logos(skip \" \")]",
    "priority = 3",
    "ignore(case)",
    "callback = f",
    "allow_greedy = true",
    "utf8 = false",
    "subpattern n = \"x\"",
    "(?&n)",
    "(?i)",
    "(?-u)",
    "(?s)",
    "|",
    "*",
    "+?",
    "{2,3}",
    "[^",
    "]",
    "&&",
    "--",
    "~~",
    "\\b",
    "\\p{L}",
    "$",
    "^",
    "é",
    "\u{10FFFF}",
    "\\xFF",
    "b\"",
    "r#\"",
    "\"#",
    "enum E {",
    "}",
    ",",
    "<'s>",
    "<T>",
    "#[logos(type T = u8)]",
    "/* */",
    "//\n",
];

/// The longest source and input that a change makes, in bytes.
const LONGEST: usize = 2_000;
const LONGEST_INPUT: usize = 600;

/// Returns a changed case. `other` gives parts.
pub fn changed(random: &mut Random, case: &Case, other: &Case) -> Case {
    let mut next = case.clone();
    if random.once_in(12) {
        next.source = grammar::source(random);
    }
    if !random.once_in(4) {
        for _ in 0..=random.below(3) {
            next.source = changed_source(random, &next.source, &other.source);
        }
    }
    if next.source.len() > LONGEST {
        next.source.clone_from(&case.source);
    }
    next.input = changed_input(random, &next, other);
    next
}

/// Returns a random point of a text between characters.
fn point(random: &mut Random, text: &str) -> usize {
    let mut at = random.below(text.len() + 1);
    while !text.is_char_boundary(at) {
        at -= 1;
    }
    at
}

/// Returns two random points of a text, in order, mostly near each other.
fn part(random: &mut Random, text: &str) -> (usize, usize) {
    let from = point(random, text);
    let longest = if random.once_in(4) { 60 } else { 6 };
    let length = random.below(longest);
    let mut to = (from + length).min(text.len());
    while !text.is_char_boundary(to) {
        to += 1;
    }
    (from, to)
}

fn replaced(text: &str, from: usize, to: usize, by: &str) -> String {
    format!("{}{by}{}", &text[..from], &text[to..])
}

fn changed_source(random: &mut Random, source: &str, other: &str) -> String {
    match random.below(10) {
        0..=2 => with_pattern(random, source),
        3 => with_lines(random, source, other),
        4 => {
            let (from, to) = part(random, source);
            replaced(source, from, to, "")
        }
        5 => {
            let at = point(random, source);
            replaced(source, at, at, random.pick(&WORDS))
        }
        6 => {
            let (from, to) = part(random, source);
            let (first, last) = part(random, other);
            replaced(source, from, to, &other[first..last])
        }
        7 => {
            let (from, to) = part(random, source);
            let at = point(random, source);
            replaced(source, at, at, &source[from..to])
        }
        8 => {
            let at = point(random, source);
            let character = char::from(random.below(128) as u8).to_string();
            replaced(source, at, at, &character)
        }
        _ => with_number(random, source),
    }
}

/// Returns the byte ranges of the texts between quotes.
fn quoted(source: &str) -> Vec<(usize, usize)> {
    let ends: Vec<_> = source.match_indices('"').map(|it| it.0).collect();
    ends.chunks_exact(2)
        .map(|pair| (pair[0] + 1, pair[1]))
        .collect()
}

/// Changes a part of a literal, or all of it, into a random pattern.
fn with_pattern(random: &mut Random, source: &str) -> String {
    let ranges = quoted(source);
    if ranges.is_empty() {
        return source.to_string();
    }
    let (from, to) = random.pick(&ranges);
    let pattern = grammar::pattern(random, 2).replace('"', "'");
    if random.once_in(3) {
        return replaced(source, from, to, &pattern);
    }
    let (first, last) = part(random, &source[from..to]);
    replaced(source, from + first, from + last, &pattern)
}

/// Adds an attribute as a line, or takes a line away, or adds one of another source.
fn with_lines(random: &mut Random, source: &str, other: &str) -> String {
    let mut lines: Vec<String> = source.lines().map(str::to_string).collect();
    let at = random.below(lines.len() + 1);
    match random.below(4) {
        0 => lines.insert(at, format!("{} W{at},", grammar::attribute(random))),
        1 => lines.insert(0, grammar::option(random)),
        2 if at < lines.len() => drop(lines.remove(at)),
        _ => {
            let others: Vec<_> = other.lines().collect();
            let line = others
                .get(random.below(others.len()))
                .copied()
                .unwrap_or_default();
            lines.insert(at, line.to_string());
        }
    }
    lines.join("\n")
}

/// Changes a number.
fn with_number(random: &mut Random, source: &str) -> String {
    let digits: Vec<_> = source
        .match_indices(|it: char| it.is_ascii_digit())
        .map(|it| it.0)
        .collect();
    if digits.is_empty() {
        return source.to_string();
    }
    let at = random.pick(&digits);
    let number = random.pick(&[
        "0",
        "1",
        "2",
        "3",
        "7",
        "9",
        "17",
        "64",
        "300",
        "4294967295",
    ]);
    replaced(source, at, at + 1, number)
}

/// Returns an input for a case: texts that its leaves match, with noise between and in them.
fn changed_input(random: &mut Random, case: &Case, other: &Case) -> Vec<u8> {
    let mut input = match random.below(4) {
        0 => case.input.clone(),
        1 => other.input.clone(),
        _ => matched(random, &case.source).unwrap_or_else(|| case.input.clone()),
    };
    for _ in 0..random.below(3) {
        let at = random.below(input.len() + 1);
        match random.below(5) {
            0 => input.insert(at, random.below(256) as u8),
            1 => drop(input.drain(at..(at + random.below(5)).min(input.len()))),
            2 => {
                let text =
                    random.pick(&["é", "\n", "日", "\u{10FFFF}", "a", " ", "\r\n", "\u{212A}"]);
                input.splice(at..at, text.bytes());
            }
            3 => input.truncate(at),
            _ => input = input.repeat(1 + random.below(4)),
        }
    }
    if random.once_in(500) && !input.is_empty() {
        input = input.repeat(10_000 / input.len() + 1);
    } else {
        input.truncate(LONGEST_INPUT);
    }
    input
}

/// Returns texts that the leaves of a source match, if it is accepted.
fn matched(random: &mut Random, source: &str) -> Option<Vec<u8>> {
    let config = Config {
        use_state_machine_codegen: true,
    };
    let made = generate(Global, source, config).ok()?;
    let (leaves, mut input) = (made.graph.leaves(), Vec::new());
    for _ in 0..1 + random.below(6) {
        let leaf = leaves.get(random.below(leaves.len()))?;
        grammar::add_match(random, leaf.pattern.hir(), &mut input);
        if random.once_in(5) {
            input.pop();
        }
    }
    Some(input)
}
