//! Functions that turn faults into compile errors. The macro calls them, and `warning` calls `text`
//! for warnings.

use crate::answer::{Diagnostic, Failure, Label};
use crate::question::{Place, Question};
use proc_macro::{Delimiter, Group, Ident, Literal, Punct, Spacing, Span, TokenStream, TokenTree};
use std::ops::Range;

/// Returns the compile error for a failure, at the name of the enum.
pub fn failure(failure: &Failure, question: &Question) -> TokenStream {
    error_at(&failure.0, question.name())
}

/// Returns the compile error for a fault, at the tokens of the fault's span.
pub fn error(fault: &Diagnostic, question: &Question) -> TokenStream {
    error_at(&text(fault, question), question.place(&fault.span))
}

fn error_at(text: &str, place: Option<Place>) -> TokenStream {
    match place {
        Some(place) => compile_error(text, place.first, place.last),
        None => compile_error(text, Span::call_site(), Span::call_site()),
    }
}

/// Returns the whole text of a fault or a warning: the first line, followed by the notes and helps.
pub fn text(found: &Diagnostic, question: &Question) -> String {
    let mut lines = vec![found.message.clone()];
    lines.extend(in_literal(found, question));
    lines.extend(
        found
            .labels
            .iter()
            .filter_map(|label| other(label, question)),
    );
    lines.extend(found.notes.iter().cloned());
    lines.join("\n")
}

/// Returns the note for another span of a diagnostic: the label, and the text at the span. Returns
/// `None` if the span is not in the text of the enum.
fn other(label: &Label, question: &Question) -> Option<String> {
    let tokens = question.text.get(label.span.clone())?;
    Some(format!("note: {}: `{}`", label.text, shortened(tokens)))
}

/// Returns the note for a part of a literal: the line of the literal with carets under the part. If
/// the line cannot be shown with carets, the note names the line and the column. Returns `None` if
/// the span is not a part of a literal.
fn in_literal(found: &Diagnostic, question: &Question) -> Option<String> {
    let part = found.carets.as_ref().unwrap_or(&found.span);
    let literal = question.place(part)?.literal?;
    let before = question.text.get(literal.start..part.start)?;
    let start = before.rfind('\n').map_or(0, |end| end + 1);
    let line = question
        .text
        .get(literal.start + start..literal.end)?
        .lines()
        .next()?;
    let column = before[start..].chars().count();
    if line.chars().count() > LONG || !line.chars().all(has_one_column) {
        let number = before.matches('\n').count() + 1;
        return Some(format!(
            "note: in this literal, at line {number}, column {}",
            column + 1
        ));
    }
    let carets = "^".repeat(marked(part, question));
    Some(format!(
        "note: in this literal\n{line}\n{}{carets}",
        " ".repeat(column)
    ))
}

/// Returns the number of carets that mark a part: one for each character of its first line, and at
/// least one.
fn marked(part: &Range<usize>, question: &Question) -> usize {
    let first = question
        .text
        .get(part.clone())
        .and_then(|text| text.lines().next());
    first.map_or(1, |text| text.chars().count().max(1))
}

/// Returns whether every terminal shows a character in exactly one column, so that carets below the
/// character are aligned.
fn has_one_column(c: char) -> bool {
    matches!(c, ' '..='~' | '\u{a1}'..='\u{2ff}' | '\u{370}'..='\u{52f}') && c != '\u{ad}'
}

/// The maximum number of characters of a line that is shown in full.
const LONG: usize = 80;

/// Returns `text` on one line, cut after [`LONG`] characters if it is longer.
fn shortened(text: &str) -> String {
    let line: String = text
        .trim()
        .chars()
        .map(|c| if c.is_control() { ' ' } else { c })
        .collect();
    match line.char_indices().nth(LONG) {
        Some((end, _)) => format!("{}..", &line[..end]),
        None => line,
    }
}

/// Returns `::core::compile_error! { ".." }` with the message `text`. The compiler shows the error
/// at the tokens from the span `first` to the span `last`.
fn compile_error(text: &str, first: Span, last: Span) -> TokenStream {
    let punct = |c, spacing| {
        let mut punct = Punct::new(c, spacing);
        punct.set_span(first);
        TokenTree::from(punct)
    };
    let mut text = Literal::string(text);
    text.set_span(last);
    let mut group = Group::new(Delimiter::Brace, TokenTree::from(text).into());
    group.set_span(last);
    [
        punct(':', Spacing::Joint),
        punct(':', Spacing::Alone),
        Ident::new("core", first).into(),
        punct(':', Spacing::Joint),
        punct(':', Spacing::Alone),
        Ident::new("compile_error", first).into(),
        punct('!', Spacing::Alone),
        group.into(),
    ]
    .into_iter()
    .collect()
}
