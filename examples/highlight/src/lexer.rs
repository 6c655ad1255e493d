//! The lexer.

use logos::Logos;

/// The tokens of a language like Rust. Every variant is a kind of text with one style.
#[derive(Logos, Clone, Copy, Debug, PartialEq)]
// All characters outside ASCII count as letters: that keeps the lexer small, and colours are no
// worse for it.
#[logos(subpattern name = r"[a-zA-Z_\u{80}-\u{10FFFF}][a-zA-Z0-9_\u{80}-\u{10FFFF}]*")]
#[logos(subpattern escape = r#"\\(?:[nrt0\\'"]|x[0-9a-fA-F]{2}|u\{[0-9a-fA-F_]{1,8}\})"#)]
#[logos(subpattern suffix = r"(?:[iu](?:8|16|32|64|128|size)|f32|f64)")]
pub enum Token {
    #[regex(r"[ \t\r\n]+")]
    Blanks,

    #[regex(r"//[^\n]*", allow_greedy = true)]
    #[regex(r"////[^\n]*", allow_greedy = true)]
    #[regex(r"/\*([^*]|\*+[^*/])*\*+/")]
    Comment,
    #[regex(r"//[/!][^\n]*", allow_greedy = true, priority = 7)]
    Doc,
    #[regex(r"/\*([^*]|\*+[^*/])*\**")]
    #[regex(r#"b?"(?:[^"\\]|\\[^\n])*"#)]
    Unclosed,
    #[regex(r"#!?\[[^\]\n]*\]")]
    Attribute,

    #[regex(r#"b?"(?:[^"\\]|\\(?:[^\n]|\n))*""#)]
    #[regex(r#"b?r"[^"]*""#)]
    #[regex(r##"b?r#"(?:[^"]|"+[^"#])*"+#"##)]
    Text,
    #[regex(r#"b?'(?:[^'\\\n]|(?&escape))'"#)]
    Character,
    #[regex(r"'(?&name)")]
    Lifetime,
    #[regex(r"[0-9][0-9_]*(?&suffix)?")]
    #[regex(r"0x[0-9a-fA-F_]+(?&suffix)?")]
    #[regex(r"0o[0-7_]+(?&suffix)?")]
    #[regex(r"0b[01_]+(?&suffix)?")]
    #[regex(r"[0-9][0-9_]*\.[0-9][0-9_]*([eE][+\-]?[0-9]+)?(?&suffix)?")]
    #[regex(r"[0-9][0-9_]*[eE][+\-]?[0-9]+(?&suffix)?")]
    Number,

    #[token("as")] #[token("break")] #[token("const")] #[token("continue")] #[token("crate")] #[token("dyn")]
    #[token("else")] #[token("enum")] #[token("extern")] #[token("fn")] #[token("for")] #[token("if")]
    #[token("impl")] #[token("in")] #[token("let")] #[token("loop")] #[token("match")] #[token("mod")]
    #[token("move")] #[token("mut")] #[token("pub")] #[token("ref")] #[token("return")] #[token("self")]
    #[token("static")] #[token("struct")] #[token("super")] #[token("trait")] #[token("type")] #[token("unsafe")]
    #[token("use")] #[token("where")] #[token("while")]
    Keyword,
    #[token("true")] #[token("false")]
    Boolean,
    #[regex(r"[iu](?:8|16|32|64|128|size)|f32|f64|bool|char|str", priority = 9)]
    #[token("Self", priority = 20)]
    Primitive,
    #[regex(r"(?&name)!", priority = 1)]
    Macro,
    #[regex(r"[A-Z][A-Z0-9_]+", priority = 8)]
    Constant,
    #[regex(r"[A-Z][a-zA-Z0-9_\u{80}-\u{10FFFF}]*", priority = 4)]
    Type,
    #[regex(r"(?&name)", priority = 1)]
    #[regex(r"r#(?&name)")]
    Name,

    #[regex(r"[+\-*/%^&|<>=!]=?|&&|\|\||<<=?|>>=?|->|=>|\.\.=?|\?|@|::|~")]
    Operator,
    #[regex(r"[(){}\[\];:,.$#]", priority = 2)]
    Punctuation,
}
