//! The encoding of answers as bytes. A number has eight bytes, in little-endian order. A text or a
//! list is preceded by its length. Used by `kept`.

use crate::answer::{Answer, Diagnostic, Implementation, Label, Piece};
use std::ops::Range;

/// The text at the end of a complete record.
const END: &str = "end of the answer";

/// Returns the record of the question `asked` and its answer, or `None` if the enum was refused.
pub fn written(answer: &Answer, asked: &str) -> Option<Vec<u8>> {
    let implementation = answer.implementation.as_ref()?;
    let mut out = Vec::with_capacity(asked.len() + implementation.text.len() + (4 << 10));
    write_text(&mut out, asked);
    write_text(&mut out, &implementation.text);
    write_list(&mut out, &implementation.pieces, |out, piece| {
        write_range(out, &piece.range);
        write_range(out, &piece.source);
    });
    write_list(&mut out, &answer.diagnostics, write_diagnostic);
    write_text(&mut out, END);
    Some(out)
}

/// Returns the answer in a record, or `None` if the record is incomplete or contains another
/// question than `asked`.
pub fn read(bytes: &[u8], asked: &str) -> Option<Answer> {
    let mut rest = bytes;
    let rest = &mut rest;
    if read_text(rest)? != asked {
        return None;
    }
    let text = read_text(rest)?.into();
    let pieces = read_list(rest, |rest| {
        let (range, source) = (read_range(rest)?, read_range(rest)?);
        Some(Piece { range, source })
    })?;
    let diagnostics = read_list(rest, read_diagnostic)?;
    let implementation = Some(Implementation { text, pieces });
    (read_text(rest)? == END && rest.is_empty()).then_some(Answer {
        implementation,
        diagnostics,
    })
}

fn write_number(out: &mut Vec<u8>, number: usize) {
    out.extend_from_slice(&(number as u64).to_le_bytes());
}

fn read_number(rest: &mut &[u8]) -> Option<usize> {
    let (number, after) = rest.split_first_chunk()?;
    *rest = after;
    usize::try_from(u64::from_le_bytes(*number)).ok()
}

fn write_text(out: &mut Vec<u8>, text: &str) {
    write_number(out, text.len());
    out.extend_from_slice(text.as_bytes());
}

fn read_text<'b>(rest: &mut &'b [u8]) -> Option<&'b str> {
    let length = read_number(rest)?;
    let (text, after) = rest.split_at_checked(length)?;
    *rest = after;
    std::str::from_utf8(text).ok()
}

fn write_range(out: &mut Vec<u8>, range: &Range<usize>) {
    write_number(out, range.start);
    write_number(out, range.end);
}

fn read_range(rest: &mut &[u8]) -> Option<Range<usize>> {
    Some(read_number(rest)?..read_number(rest)?)
}

fn write_list<T>(out: &mut Vec<u8>, list: &[T], write: fn(&mut Vec<u8>, &T)) {
    write_number(out, list.len());
    list.iter().for_each(|item| write(out, item));
}

fn read_list<T>(rest: &mut &[u8], read: fn(&mut &[u8]) -> Option<T>) -> Option<Vec<T>> {
    (0..read_number(rest)?).map(|_| read(rest)).collect()
}

fn write_diagnostic(out: &mut Vec<u8>, found: &Diagnostic) {
    write_number(out, found.is_error.into());
    write_text(out, &found.message);
    write_range(out, &found.span);
    write_list(out, found.carets.as_slice(), write_range);
    write_list(out, &found.labels, |out, label| {
        write_range(out, &label.span);
        write_text(out, &label.text);
    });
    write_list(out, &found.notes, |out, note| write_text(out, note));
}

fn read_diagnostic(rest: &mut &[u8]) -> Option<Diagnostic> {
    Some(Diagnostic {
        is_error: read_number(rest)? != 0,
        message: read_text(rest)?.into(),
        span: read_range(rest)?,
        carets: read_list(rest, read_range)?.pop(),
        labels: read_list(rest, |rest| {
            let (span, text) = (read_range(rest)?, read_text(rest)?.into());
            Some(Label { span, text })
        })?,
        notes: read_list(rest, |rest| Some(read_text(rest)?.into()))?,
    })
}

#[cfg(test)]
mod tests {
    use super::{read, written};
    use crate::answer::{Answer, Diagnostic, Implementation, Label, Piece};

    fn answer() -> Answer {
        let label = Label {
            span: 1..2,
            text: "see also".into(),
        };
        let found = Diagnostic {
            is_error: false,
            message: "never found é".into(),
            span: 3..usize::MAX,
            carets: Some(4..5),
            labels: vec![label],
            notes: vec!["help: a".into(), String::new()],
        };
        let piece = Piece {
            range: 6..7,
            source: 8..9,
        };
        Answer {
            implementation: Some(Implementation {
                text: "impl".into(),
                pieces: vec![piece],
            }),
            diagnostics: vec![found],
        }
    }

    #[test]
    fn what_is_written_is_read() {
        let bytes = written(&answer(), "asked").unwrap();
        let found = read(&bytes, "asked").unwrap();
        assert_eq!(written(&found, "asked").unwrap(), bytes);
        let found = &found.diagnostics[0];
        assert_eq!(
            (&*found.message, found.span.end),
            ("never found é", usize::MAX)
        );
        assert_eq!((found.carets.clone(), found.notes.len()), (Some(4..5), 2));
    }

    #[test]
    fn a_record_that_is_not_whole_is_none() {
        let bytes = written(&answer(), "asked").unwrap();
        for length in 0..bytes.len() {
            assert!(read(&bytes[..length], "asked").is_none());
        }
        assert!(read(&[&bytes[..], b"x"].concat(), "asked").is_none());
        assert!(read(&bytes, "asked for").is_none());
        assert!(read(&[0xff; 64], "asked").is_none());
    }

    #[test]
    fn a_refused_enum_has_no_record() {
        let refused = Answer {
            implementation: None,
            diagnostics: Vec::new(),
        };
        assert!(written(&refused, "asked").is_none());
    }
}
