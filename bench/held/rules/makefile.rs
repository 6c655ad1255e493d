//! Makefiles, whose recipes are lines after a tab.

use logos::Logos;

#[derive(Logos, Clone, Copy, Debug, PartialEq)]
#[logos(skip r" +")]
#[logos(skip r"\\\n[ \t]*")]
#[logos(skip(r"#[^\n]*", allow_greedy = true))]
pub enum Token {
    #[token("ifeq")]
    IfEqual,
    #[token("ifneq")]
    IfNot,
    #[token("ifdef")]
    IfDefined,
    #[token("ifndef")]
    IfUndefined,
    #[token("else")]
    Else,
    #[token("endif")]
    EndIf,
    #[token("include")]
    Include,
    #[token("-include")]
    MayInclude,
    #[token("define")]
    Define,
    #[token("endef")]
    EndDefine,
    #[token("export")]
    Export,
    #[token("override")]
    Override,
    #[token(".PHONY")]
    Phony,
    #[token("=")]
    Assign,
    #[token(":=")]
    Expand,
    #[token("::=")]
    ExpandNow,
    #[token("?=")]
    Default,
    #[token("+=")]
    Append,
    #[token(":")]
    Colon,
    #[token("::")]
    Double,
    #[token("(")]
    Open,
    #[token(")")]
    Close,
    #[token("|")]
    Bar,
    #[token(";")]
    Semicolon,
    #[token("&&")]
    And,
    #[token(",")]
    Comma,
    #[regex(r"\n")]
    Line,
    #[regex(r"\n\t+")]
    Recipe,
    #[regex(r"\t+")]
    Tab,
    #[regex(r"\$[(][A-Za-z0-9_.\-]+[)]|\$[{][A-Za-z0-9_.\-]+[}]")]
    Variable,
    #[regex(r"\$[@<^?*+%|$]")]
    Automatic,
    #[regex(r"\$[({][a-z\-]+ ")]
    Call,
    #[regex(r#""([^"\\\n]|\\[^\n])*""#)]
    Text,
    #[regex(r"'[^'\n]*'")]
    Quoted,
    #[regex(r"[A-Za-z0-9_.%/~+*@\-]+")]
    Word,
    #[regex(r"[!-/:-@\[-`{-~]", priority = 1)]
    Sign,
}
