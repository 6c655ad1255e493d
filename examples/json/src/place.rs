//! Errors, shown with their lines.

use std::ops::Range;

/// An error: its message, and its span in byte offsets.
#[derive(Debug, PartialEq)]
pub struct Error {
    pub span: Range<usize>,
    pub message: String,
}

/// Returns the error as `file:line:column: message`, and under it the line with carets. Lines and
/// columns count from 1, columns in characters.
pub fn shown(path: &str, text: &str, error: &Error) -> String {
    let before = &text[..error.span.start];
    let line_start = before.rfind('\n').map_or(0, |at| at + 1);
    let line = text[line_start..].lines().next().unwrap_or("");
    let number = before.matches('\n').count() + 1;
    let column = text[line_start..error.span.start].chars().count();
    let end = error.span.end.min(line_start + line.len()).max(error.span.start);
    let carets = text[error.span.start..end].chars().count().max(1);
    format!(
        "{path}:{number}:{}: {}\n{line}\n{}{}",
        column + 1,
        error.message,
        " ".repeat(column),
        "^".repeat(carets)
    )
}
