//! The two lexers.

use logos::Logos;

/// The text outside tags.
#[derive(Logos, Clone, Copy, Debug, PartialEq)]
#[logos(subpattern comment = r"\{\{!([^}]|\}[^}])*")]
pub enum Outside {
    #[regex(r"[^{ \t\r\n\\]+")]
    #[token("{")]
    #[token("\\")]
    Text,
    #[regex(r"[ \t]+")]
    Blanks,
    // Blanks in front of a line end, or of the end of the text, are left out.
    #[regex(r"[ \t]+(?m:$)", priority = 9)]
    LastBlanks,
    #[regex(r"\r?\n")]
    #[token("\r")]
    LineEnd,
    #[token("\\{{")]
    Escaped,
    #[token("{{")]
    Open,
    #[token("{{{")]
    OpenRaw,
    #[regex(r"(?&comment)\}\}")]
    Comment,
    #[regex(r"(?&comment)\}?")]
    UnclosedComment,
}

/// The tokens inside a tag.
#[derive(Logos, Clone, Copy, Debug, PartialEq)]
#[logos(skip r"[ \t\r\n]+")]
pub enum Inside {
    #[regex(r"[a-zA-Z_][a-zA-Z0-9_\-]*")]
    Name,
    #[regex("[0-9]+")]
    Index,
    #[regex(r#""[^"\n]*""#)]
    Default,
    #[regex(r#""[^"\n]*"#)]
    UnclosedText,
    #[token(".")]
    Point,
    #[token("#")]
    Section,
    #[token("^")]
    Inverted,
    #[token("/")]
    End,
    #[token("&")]
    Raw,
    #[token("??")]
    Else,
    #[token("|")]
    Filter,
    #[token("upper", ignore(case), priority = 30)]
    Upper,
    #[token("lower", ignore(case), priority = 30)]
    Lower,
    #[token("length", ignore(case), priority = 30)]
    Length,
    #[token("}}")]
    Close,
    #[token("}}}")]
    CloseRaw,
    #[token("=")]
    #[token(">")]
    Unsupported,
}
