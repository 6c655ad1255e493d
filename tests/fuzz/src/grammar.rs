//! Random patterns, attributes and enums, and texts that a tree matches.

use crate::random::Random;
use logos_codegen::logos_hir::hir::{Class, Hir, Range};

/// Parts of patterns that are no letters.
const ATOMS: [&str; 44] = [
    ".",
    "[a-c]",
    "[^a]",
    "[^a-c\\n]",
    "\\d",
    "\\w",
    "\\s",
    "\\D",
    "\\W",
    "\\pL",
    "\\p{Greek}",
    "\\P{ASCII}",
    "[[:alpha:]]",
    "[[:^digit:]]",
    "[a-e&&c-g]",
    "[a-z--[aeiou]]",
    "[a-d~~c-f]",
    "[a&&b]",
    "\\x41",
    "\\u00e9",
    "\\n",
    "\\.",
    "é",
    "ß",
    "日",
    "😀",
    "[é-ü]",
    "[\\u{7F0}-\\u{810}]",
    "[\\u{FFF0}-\\u{1000F}]",
    "$",
    "\\z",
    "(?m:$)",
    "(?-u:\\b)",
    "(?-u:\\B)",
    "(?m:^)",
    "^",
    "(?-u:\\w)",
    "(?-u:[^a])",
    "(?-u:\\xFF)",
    "(?s-u:.)",
    "(?i:k)",
    "(?i:[a-k])",
    "(?&s0)",
    "(?&s1)",
];

const LETTERS: &[u8] = b"aaabbcdk01 -_\"'/*";

const OPERATORS: [&str; 14] = [
    "*", "+", "?", "{2}", "{1,3}", "{0,2}", "{2,}", "{0}", "*?", "+?", "??", "{3,5}?", "{7}",
    "{0,}",
];

const CALLBACKS: [&str; 5] = [
    "callback",
    "|lex| lex.slice()",
    "module::call",
    "callback = f",
    "|_| Skip",
];

const OPTIONS: [&str; 10] = [
    "skip \" +\"",
    "skip(\"//[^\\n]*\", allow_greedy = true)",
    "utf8 = false",
    "extras = u8",
    "error = String",
    "error(E, callback)",
    "subpattern s0 = \"[ab]|c\"",
    "subpattern s1 = r\"(?&s0)x?\"",
    "crate = a::b",
    "skip(r\"\\s\", callback)",
];

/// Returns a random pattern. `depth` bounds the nesting of its groups.
pub fn pattern(random: &mut Random, depth: usize) -> String {
    let mut text = String::new();
    for branch in 0..=usize::from(random.once_in(4)) + usize::from(random.once_in(9)) {
        if branch > 0 {
            text.push('|');
        }
        for _ in 0..random.below(4) + usize::from(!random.once_in(20)) {
            text.push_str(&atom(random, depth));
            if random.once_in(3) {
                text.push_str(random.pick(&OPERATORS));
            }
        }
    }
    text
}

fn atom(random: &mut Random, depth: usize) -> String {
    match random.below(10) {
        0..=5 => char::from(random.pick(LETTERS)).to_string(),
        6..=7 => (random.pick(&ATOMS)).to_string(),
        _ if depth == 0 => "x".to_string(),
        _ => {
            let opening = random.pick(&["(", "(?:", "(?i:", "(?s:", "(?-u:", "(?U:", "(?m:"]);
            format!("{opening}{})", pattern(random, depth - 1))
        }
    }
}

/// Returns a text as a literal of Rust.
pub fn literal(random: &mut Random, text: &str) -> String {
    let is_bytes = random.once_in(8) && text.is_ascii();
    let prefix = if is_bytes { "b" } else { "" };
    match text.contains('"') {
        true => format!("{prefix}r##\"{text}\"##"),
        false => format!("{prefix}r\"{text}\""),
    }
}

/// Returns a random attribute of a variant.
pub fn attribute(random: &mut Random) -> String {
    let name = if random.once_in(3) { "token" } else { "regex" };
    let text = pattern(random, 2);
    let mut arguments = literal(random, &text);
    if random.once_in(6) {
        arguments.push_str(&format!(", {}", random.pick(&CALLBACKS)));
    }
    if !random.once_in(3) {
        arguments.push_str(&format!(", priority = {}", random.below(30)));
    }
    if random.once_in(8) {
        arguments.push_str(", ignore(case)");
    }
    if random.once_in(3) {
        arguments.push_str(", allow_greedy = true");
    }
    format!("#[{name}({arguments})]")
}

/// Returns a random attribute of an enum.
pub fn option(random: &mut Random) -> String {
    format!("#[logos({})]", random.pick(&OPTIONS))
}

/// Returns a random enum.
pub fn source(random: &mut Random) -> String {
    let mut text = String::new();
    while random.once_in(2) {
        text.push_str(&option(random));
        text.push('\n');
    }
    text.push_str("enum E {\n");
    for at in 0..=random.below(6) {
        for _ in 0..=usize::from(random.once_in(5)) {
            text.push_str(&format!("    {}\n", attribute(random)));
        }
        let field = if random.once_in(5) { "(u8)" } else { "" };
        text.push_str(&format!("    V{at}{field},\n"));
    }
    text.push_str("}\n");
    text
}

/// Returns one of the members of ranges.
fn member(random: &mut Random, ranges: &[Range]) -> Option<u32> {
    let range = ranges.get(random.below(ranges.len()))?;
    let width = (range.last - range.first) as usize;
    let offset = match random.below(4) {
        0 => 0,
        1 => width,
        _ => random.below((width + 1).min(40)),
    };
    Some(range.first + offset as u32)
}

/// Appends bytes that a tree matches, if nothing is asked of their neighbors.
pub fn add_match(random: &mut Random, tree: &Hir, out: &mut Vec<u8>) {
    if out.len() > 400 {
        return;
    }
    match tree {
        Hir::Empty | Hir::Look(_) => {}
        Hir::Literal(bytes) => out.extend_from_slice(bytes),
        Hir::Class(Class::Bytes(ranges)) => out.extend(member(random, ranges).map(|it| it as u8)),
        Hir::Class(Class::Characters(ranges)) => {
            let character = member(random, ranges).and_then(char::from_u32);
            out.extend(
                character
                    .map(|it| it.to_string())
                    .unwrap_or_default()
                    .bytes(),
            );
        }
        Hir::Repetition { min, max, sub, .. } => {
            let more = random.below(max.map_or(4, |max| (max - min + 1).min(4) as usize));
            for _ in 0..(*min as usize + more).min(60) {
                add_match(random, sub, out);
            }
        }
        Hir::Capture(sub) => add_match(random, sub, out),
        Hir::Concat(parts) => {
            for part in parts.iter() {
                add_match(random, part, out);
            }
        }
        Hir::Alternation(branches) => {
            let at = random.below(branches.len());
            branches
                .get(at)
                .into_iter()
                .for_each(|branch| add_match(random, branch, out));
        }
    }
}
