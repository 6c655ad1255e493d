//! Files of translations, whose texts are not wrapped.

use logos::Logos;

#[derive(Logos, Clone, Copy, Debug, PartialEq)]
#[logos(skip r"[ \t\r\n]+")]
pub enum Token {
    #[token("msgid")]
    Id,
    #[token("msgid_plural")]
    Plural,
    #[token("msgstr")]
    Str,
    #[token("msgctxt")]
    Context,
    #[regex(r"# [^\n]*", allow_greedy = true)]
    Comment,
    #[regex(r"#\.[^\n]*", allow_greedy = true)]
    Extracted,
    #[regex(r"#:[^\n]*", allow_greedy = true)]
    Reference,
    #[regex(r"#,[^\n]*", allow_greedy = true)]
    Flags,
    #[regex(r"#\|[^\n]*", allow_greedy = true)]
    Previous,
    #[regex(r"#~[^\n]*", allow_greedy = true)]
    Obsolete,
    #[regex(r"\[[0-9]+\]")]
    Index,
    #[regex(r#""([^"\\\n]|\\[^\n])*""#)]
    Text,
}
