//! The parts of a Mustache template.

use logos::Logos;

/// Why a template is refused.
#[derive(Debug, Clone, PartialEq)]
pub enum TemplateError {
    Unclosed(String),
    Unopened(String),
}

#[derive(Logos, Debug, Clone, Copy, PartialEq)]
#[logos(subpattern blank = r"[ \t\r\n]*")]
#[logos(subpattern name = r"[a-zA-Z_][a-zA-Z0-9_.-]*|\.")]
pub enum Part<'t> {
    #[regex(r"([^{]|\{[^{])+", |lex| lex.slice())]
    Text(&'t str),
    #[regex(r"\{\{(?&blank)((?&name))(?&blank)\}\}", |lex| lex.slice())]
    Variable(&'t str),
    #[regex(r"\{\{\{(?&blank)((?&name))(?&blank)\}\}\}")]
    #[regex(r"\{\{&(?&blank)((?&name))(?&blank)\}\}")]
    Raw,
    #[regex(r"\{\{#(?&blank)((?&name))(?&blank)\}\}")]
    Section,
    #[regex(r"\{\{\^(?&blank)((?&name))(?&blank)\}\}")]
    Inverted,
    #[regex(r"\{\{/(?&blank)((?&name))(?&blank)\}\}")]
    Close,
    #[regex(r"\{\{>(?&blank)((?&name))(?&blank)\}\}")]
    Partial,
    #[regex(r"\{\{![^}]*\}\}")]
    Comment,
}
