//! Lines and columns of spans.

use logos::{Logos, Span};

#[derive(Logos, Debug, PartialEq)]
#[logos(skip r"[ \t\r\n]+")]
enum Token {
    #[regex(r"\p{Alphabetic}+")]
    Word,
}

/// The lines of a text.
struct Lines<'s> {
    text: &'s str,
    /// Where each line begins.
    starts: Vec<usize>,
}

impl<'s> Lines<'s> {
    fn new(text: &'s str) -> Self {
        let after = text.match_indices('\n').map(|(at, _)| at + 1);
        Lines { text, starts: std::iter::once(0).chain(after).collect() }
    }

    /// Returns the line and the column of a byte offset. Both count from 1, columns in characters.
    fn position(&self, offset: usize) -> (usize, usize) {
        let line = self.starts.partition_point(|start| *start <= offset);
        let start = self.starts[line - 1];
        (line, self.text[start..offset].chars().count() + 1)
    }

    /// Returns the line of a span, with carets below the part of the span in this line.
    fn excerpt(&self, span: Span) -> String {
        let (line, column) = self.position(span.start);
        let text = self.text[self.starts[line - 1]..].lines().next().unwrap_or("");
        let width = self.text[span].lines().next().map_or(0, |part| part.chars().count());
        format!("{text}\n{}{}", " ".repeat(column - 1), "^".repeat(width.max(1)))
    }
}

fn main() {
    let text = "größe ok\n  né #!\nend";
    let lines = Lines::new(text);
    for (item, span) in Token::lexer(text).spanned() {
        let (line, column) = lines.position(span.start);
        println!("{line}:{column} {item:?}");
        if item.is_err() {
            println!("{}", lines.excerpt(span));
        }
    }
}
