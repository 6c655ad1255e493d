//! From a source to text with colours. All of the source is in it, errors too.

use crate::lexer::Token;
use logos::Logos;

/// A kind of text: its class on a page, its colours on a light and on a dark page, and its code on
/// a terminal.
struct Style(&'static str, &'static str, &'static str, &'static str);

const STYLES: [Style; 15] = [
    Style("comment", "#6a737d", "#8b949e", "90"),
    Style("doc", "#22863a", "#7ee787", "32"),
    Style("attribute", "#735c0f", "#e3b341", "33"),
    Style("text", "#032f62", "#a5d6ff", "36"),
    Style("lifetime", "#b35900", "#ffa657", "33"),
    Style("number", "#005cc5", "#79c0ff", "34"),
    Style("keyword", "#d73a49", "#ff7b72", "31;1"),
    Style("primitive", "#6f42c1", "#d2a8ff", "35"),
    Style("macro", "#6f42c1", "#d2a8ff", "35;1"),
    Style("constant", "#005cc5", "#79c0ff", "34;1"),
    Style("type", "#e36209", "#ffa657", "33;1"),
    Style("function", "#6f42c1", "#d2a8ff", "35"),
    Style("operator", "#d73a49", "#ff7b72", "31"),
    Style("punctuation", "#586069", "#8b949e", "37"),
    Style("wrong", "#b31d28", "#f85149", "41;97"),
];

/// Returns the name of the style of a token, or none where it looks like any text. A name in front
/// of a parenthesis is a function.
fn style(token: Result<Token, ()>, is_called: bool) -> Option<&'static str> {
    use Token::*;
    Some(match token {
        Ok(Blanks) => return None,
        Ok(Name) if is_called => "function",
        Ok(Name) => return None,
        Ok(Comment) => "comment",
        Ok(Doc) => "doc",
        Ok(Attribute) => "attribute",
        Ok(Text | Character) => "text",
        Ok(Lifetime) => "lifetime",
        Ok(Number | Boolean) => "number",
        Ok(Keyword) => "keyword",
        Ok(Primitive) => "primitive",
        Ok(Macro) => "macro",
        Ok(Constant) => "constant",
        Ok(Type) => "type",
        Ok(Operator) => "operator",
        Ok(Punctuation) => "punctuation",
        Ok(Unclosed) | Err(()) => "wrong",
    })
}

/// Returns the parts of a source in order, each with its style.
fn parts(text: &str) -> impl Iterator<Item = (Option<&'static str>, &str)> {
    Token::lexer(text).spanned().map(|(token, span)| {
        let is_called = text[span.end..].starts_with('(');
        (style(token, is_called), &text[span])
    })
}

/// Returns the source for a terminal.
pub fn ansi(text: &str) -> String {
    let mut out = String::new();
    for (style, part) in parts(text) {
        match style.and_then(|name| STYLES.iter().find(|style| style.0 == name)) {
            Some(style) => out.push_str(&format!("\x1B[{}m{part}\x1B[0m", style.3)),
            None => out.push_str(part),
        }
    }
    out
}

/// Returns a page that needs no other file, light or dark as its reader's screen is.
pub fn page(title: &str, text: &str) -> String {
    let rules = |colour: fn(&Style) -> &'static str| {
        STYLES.iter().map(|style| format!(".{}{{color:{}}}", style.0, colour(style))).collect::<String>()
    };
    let mut out = format!(
        "<!DOCTYPE html>\n<html lang=\"en\"><head><meta charset=\"utf-8\"><title>{}</title><style>\n\
         body{{background:#fff;color:#24292e}}pre{{font:14px/1.5 monospace;tab-size:4}}{}\n\
         @media(prefers-color-scheme:dark){{body{{background:#0d1117;color:#c9d1d9}}{}}}\n\
         </style></head><body><pre>\n",
        escaped(title),
        rules(|style| style.1),
        rules(|style| style.2)
    );
    for (style, part) in parts(text) {
        match style {
            Some(name) => out.push_str(&format!("<span class=\"{name}\">{}</span>", escaped(part))),
            None => out.push_str(&escaped(part)),
        }
    }
    out.push_str("</pre></body></html>\n");
    out
}

fn escaped(text: &str) -> String {
    text.replace('&', "&amp;").replace('<', "&lt;").replace('>', "&gt;").replace('"', "&quot;")
}

#[cfg(test)]
mod tests {
    use super::*;
    use logos::Scan;

    #[test]
    fn scanning_finds_the_same_tokens() {
        let text = include_str!("../data/sample.rs.txt").repeat(20);
        for text in [&text, &text.replace('"', ""), &text.replace('\n', " ")] {
            let found: Vec<_> = Token::scan(text).map(|(token, span)| (style(token, false), span)).collect();
            let wanted: Vec<_> = Token::lexer(text).spanned().map(|(token, span)| (style(token, false), span)).collect();
            assert_eq!(found, wanted);
        }
    }
}
