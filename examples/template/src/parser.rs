//! From the text of a template to its parts.

use crate::lexers::{Inside, Outside};
use crate::place::Error;
use logos::{Lexer, Logos};
use std::ops::Range;

/// A filter that changes a value before it is printed.
#[derive(Clone, Copy, Debug, PartialEq)]
pub enum Filter {
    Upper,
    Lower,
    Length,
}

/// A part of a template. Names are slices of its text.
#[derive(Debug, PartialEq)]
pub enum Part<'t> {
    Text(&'t str),
    Value { path: Vec<&'t str>, default: &'t str, filters: Vec<Filter>, is_raw: bool },
    Section { path: Vec<&'t str>, is_inverted: bool, parts: Vec<Part<'t>> },
}

/// A section that is still open: its path, whether it is inverted, where it opened, and the parts
/// in front of it.
struct Open<'t> {
    path: Vec<&'t str>,
    is_inverted: bool,
    span: Range<usize>,
    before: Vec<Part<'t>>,
}

/// Reads a template.
pub fn parse(text: &str) -> Result<Vec<Part<'_>>, Error> {
    let mut reader = Reader { parts: Vec::new(), open: Vec::new() };
    let mut lexer = Outside::lexer(text);
    while let Some(token) = lexer.next() {
        match token {
            Ok(Outside::Text | Outside::Blanks | Outside::LineEnd) => reader.parts.push(Part::Text(lexer.slice())),
            Ok(Outside::Escaped) => reader.parts.push(Part::Text("{{")),
            Ok(Outside::LastBlanks | Outside::Comment) => {}
            Ok(Outside::UnclosedComment) => return Err(error(lexer.span(), "the comment is not closed")),
            Ok(Outside::Open) => lexer = reader.tag(lexer.morph(), Inside::Close)?.morph(),
            Ok(Outside::OpenRaw) => lexer = reader.tag(lexer.morph(), Inside::CloseRaw)?.morph(),
            Err(()) => unreachable!("any character is a token outside tags"),
        }
    }
    match reader.open.pop() {
        Some(open) => Err(error(open.span, "the section is not closed")),
        None => Ok(reader.parts),
    }
}

struct Reader<'t> {
    parts: Vec<Part<'t>>,
    open: Vec<Open<'t>>,
}

/// The kinds of tags.
#[derive(PartialEq)]
enum Kind {
    Value { is_raw: bool },
    Section { is_inverted: bool },
    End,
}

impl<'t> Reader<'t> {
    /// Reads a tag up to the token that closes it, and returns the lexer after it.
    fn tag(&mut self, mut lexer: Lexer<'t, Inside>, close: Inside) -> Result<Lexer<'t, Inside>, Error> {
        let opening = lexer.span();
        let mut kind = Kind::Value { is_raw: close == Inside::CloseRaw };
        let mut token = next(&mut lexer)?;
        match token {
            Inside::Section => kind = Kind::Section { is_inverted: false },
            Inside::Inverted => kind = Kind::Section { is_inverted: true },
            Inside::End => kind = Kind::End,
            Inside::Raw => kind = Kind::Value { is_raw: true },
            _ => {}
        }
        if matches!(token, Inside::Section | Inside::Inverted | Inside::End | Inside::Raw) {
            token = next(&mut lexer)?;
        }
        let (mut path, mut default, mut filters) = (Vec::new(), "", Vec::new());
        while token != close {
            match token {
                Inside::Name | Inside::Index | Inside::Upper | Inside::Lower | Inside::Length => path.push(lexer.slice()),
                Inside::Point => {}
                Inside::Else => {
                    expect(next(&mut lexer)? == Inside::Default, &lexer, "a text in quotes is expected after ??")?;
                    default = lexer.slice().trim_matches('"');
                }
                Inside::Filter => filters.push(filter(next(&mut lexer)?, &lexer)?),
                _ => return Err(error(lexer.span(), "this does not belong into a tag")),
            }
            token = next(&mut lexer)?;
        }
        let span = opening.start..lexer.span().end;
        self.finish(kind, Part::Value { path, default, filters, is_raw: false }, span)?;
        Ok(lexer)
    }

    /// Adds a tag that was read.
    fn finish(&mut self, kind: Kind, read: Part<'t>, span: Range<usize>) -> Result<(), Error> {
        let Part::Value { path, default, filters, .. } = read else { unreachable!() };
        match kind {
            Kind::Value { is_raw } => self.parts.push(Part::Value { path, default, filters, is_raw }),
            Kind::Section { is_inverted } => {
                let before = std::mem::take(&mut self.parts);
                self.open.push(Open { path, is_inverted, span, before });
            }
            Kind::End => {
                let Some(open) = self.open.pop() else {
                    return Err(error(span, "no section is open here"));
                };
                if open.path != path {
                    return Err(error(span, &format!("the open section is {}", open.path.join("."))));
                }
                let parts = std::mem::replace(&mut self.parts, open.before);
                self.parts.push(Part::Section { path, is_inverted: open.is_inverted, parts });
            }
        }
        Ok(())
    }
}

/// Returns the next token of a tag.
fn next(lexer: &mut Lexer<'_, Inside>) -> Result<Inside, Error> {
    match lexer.next() {
        Some(Ok(Inside::UnclosedText)) => Err(error(lexer.span(), "the text is not closed")),
        Some(Ok(token)) => Ok(token),
        Some(Err(())) => Err(error(lexer.span(), "this does not belong into a tag")),
        None => Err(error(lexer.span(), "the template ends inside a tag")),
    }
}

fn filter(token: Inside, lexer: &Lexer<'_, Inside>) -> Result<Filter, Error> {
    match token {
        Inside::Upper => Ok(Filter::Upper),
        Inside::Lower => Ok(Filter::Lower),
        Inside::Length => Ok(Filter::Length),
        _ => Err(error(lexer.span(), "the filters are upper, lower and length")),
    }
}

fn expect(holds: bool, lexer: &Lexer<'_, Inside>, message: &str) -> Result<(), Error> {
    if holds { Ok(()) } else { Err(error(lexer.span(), message)) }
}

fn error(span: Range<usize>, message: &str) -> Error {
    Error { span, message: message.into() }
}
