//! The library's answers about enums, in types of Rust's standard library. Used by all other
//! modules.

use crate::question::Question;
use logos_codegen::logos_codegen::generator::Config;
use logos_codegen::logos_derive as library;
use logos_codegen::logos_help::FaultHelps;
use logos_codegen::logos_tables::Shape;
use logos_codegen::logos_token::token::Span;
use rattle_std::alloc::{Global, set_budget_of_program};
use std::ops::Range;
use std::panic::{AssertUnwindSafe, catch_unwind};

/// The library's answer about an enum: the faults and warnings, and the implementation if the enum
/// is accepted.
pub struct Answer {
    pub implementation: Option<Implementation>,
    pub diagnostics: Vec<Diagnostic>,
}

/// The text of an implementation, and the pieces of the source that it contains.
pub struct Implementation {
    pub text: String,
    pub pieces: Vec<Piece>,
}

/// A piece of the source that the implementation repeats.
pub struct Piece {
    /// The byte range of the piece in the implementation.
    pub range: Range<usize>,
    /// The byte range of the piece's tokens in the source.
    pub source: Range<usize>,
}

/// A fault or a warning about an enum.
pub struct Diagnostic {
    pub is_error: bool,
    /// The first line of the diagnostic. It begins with the code in brackets if there is a code.
    pub message: String,
    /// The span of the diagnostic: a byte range of the source.
    pub span: Range<usize>,
    /// The byte range of the faulty part of a literal, if this part is not all of `span`.
    pub carets: Option<Range<usize>>,
    pub labels: Vec<Label>,
    /// The notes. Each note begins with `note: ` or `help: `.
    pub notes: Vec<String>,
}

/// A further span of a diagnostic: a byte range of the source, with a label.
pub struct Label {
    pub span: Range<usize>,
    pub text: String,
}

/// A message that explains why there is no answer. The message may also explain how to remove the
/// cause.
pub struct Failure(pub String);

/// The name of an implementation's shape, as in the variable `LOGOS_SHAPE`.
#[derive(Clone, Copy)]
pub struct ShapeName(pub &'static str);

impl ShapeName {
    /// The names of all shapes.
    pub const ALL: [&'static str; 3] = ["tables", "tailcall", "state_machine"];

    fn shape(self) -> Shape {
        let code = |use_state_machine_codegen| {
            Shape::Code(Config {
                use_state_machine_codegen,
            })
        };
        match self.0 {
            "tailcall" => code(false),
            "state_machine" => code(true),
            _ => Shape::Tables,
        }
    }
}

/// Sets the maximum memory of the library according to the variable `LOGOS_MEMORY`.
///
/// # Errors
///
/// Returns a message if the value of the variable is not a number of bytes, such as `500M`.
pub fn set_budget() -> Result<(), Failure> {
    set_budget_of_program().map_err(|error| Failure(error.to_string()))
}

/// Calls the library, and returns the library's answer about the enum of `question`.
///
/// # Errors
///
/// Returns a message if memory runs out, or if the library panics. A panic is a bug in the library.
pub fn ask(question: &Question, shape: ShapeName) -> Result<Answer, Failure> {
    let derive = || library::derive(Global, &question.text, shape.shape(), &FaultHelps);
    match catch_unwind(AssertUnwindSafe(derive)) {
        Ok(Ok(derivation)) => Ok(answer(&derivation)),
        Ok(Err(_)) => Err(Failure(format!(
            "there is not enough memory to make the lexer of {}\n\
             help: the most that is used is 1 GiB, or what the variable LOGOS_MEMORY says, such as \
             `LOGOS_MEMORY=4G`\n\
             help: smaller counts, as in `{{0,20}}`, and smaller classes need less",
            question.described()
        ))),
        Err(_) => Err(Failure(format!(
            "the lexer of {} cannot be made: the library has panicked, which is a mistake in it",
            question.described()
        ))),
    }
}

fn answer(derivation: &library::Derivation) -> Answer {
    Answer {
        implementation: derivation.implementation.as_ref().map(implementation),
        diagnostics: derivation.diagnostics.iter().map(diagnostic).collect(),
    }
}

fn implementation(found: &library::Sink) -> Implementation {
    Implementation {
        text: found.text.as_str().into(),
        pieces: found.pieces.iter().map(piece).collect(),
    }
}

fn piece(piece: &library::Piece) -> Piece {
    Piece {
        range: piece.from..piece.to,
        source: range(piece.span),
    }
}

fn range(span: Span) -> Range<usize> {
    span.from..span.to
}

fn diagnostic(found: &library::Diagnostic) -> Diagnostic {
    let message = found.message.as_str();
    let note = |note: &library::Note| {
        let level = if note.is_help { "help" } else { "note" };
        format!("{level}: {}", note.text.as_str())
    };
    Diagnostic {
        is_error: matches!(found.level, library::Level::Error),
        message: match &found.code {
            Some(code) => format!("[{}] {message}", code.name()),
            None => message.into(),
        },
        span: range(found.span),
        carets: found.carets.map(range),
        labels: found.labels.iter().map(label).collect(),
        notes: found.notes.iter().map(note).collect(),
    }
}

fn label(label: &library::Label) -> Label {
    Label {
        span: range(label.span),
        text: label.text.as_str().into(),
    }
}
