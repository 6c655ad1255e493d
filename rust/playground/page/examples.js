// The examples of the page: an enum and a text each.

const README = `use logos::Logos;

#[derive(Debug, Logos)]
#[logos(skip r"[ \\t\\n]+")]
enum Token {
    #[regex("[a-z]+")]
    Word,
    #[token("=")]
    Equals,
}
`;

const AMBIGUOUS = `#[derive(logos::Logos)]
#[logos(skip " +")]
enum Code {
    #[token("add")]
    Add,
    #[regex("[a-z_]+")]
    Name,
    #[regex("[0-9a-f]+")]
    Hex,
}
`;

const JSON = `#[derive(logos::Logos)]
#[logos(skip r"[ \\t\\r\\n]+")]
enum Json {
    #[token("{")]
    OpenBrace,
    #[token("}")]
    CloseBrace,
    #[token("[")]
    OpenBracket,
    #[token("]")]
    CloseBracket,
    #[token(":")]
    Colon,
    #[token(",")]
    Comma,
    #[token("null")]
    #[token("true")]
    #[token("false")]
    Name,
    #[regex(r"-?(0|[1-9][0-9]*)(\\.[0-9]+)?([eE][+-]?[0-9]+)?")]
    Number,
    #[regex(r#""([^"\\\\\\x00-\\x1F]|\\\\(["\\\\bnfrt/]|u[0-9a-fA-F]{4}))*""#)]
    String,
}
`;

const TWO = `use logos::Logos;

#[derive(Logos)]
#[logos(skip "[ \\n]+")]
enum Sum {
    #[regex("[0-9]+(\\\\.[0-9]+)?")]
    Number,
    #[regex("[-+*/()]")]
    Sign,
    #[token("let", priority = 9)]
    Let,
    #[regex("[\\\\p{XID_Start}_]\\\\p{XID_Continue}*")]
    Name,
    #[token("=")]
    Is,
}

mod lines {
    #[derive(logos::Logos)]
    pub enum Line {
        #[regex("[^\\n]+\\n?")]
        Text,
        #[token("\\n")]
        Empty,
    }
}
`;

export const EXAMPLES = [
    { name: "Words (README)", source: README, text: "size = big\nanswer = 42\n" },
    { name: "Ambiguous leaves", source: AMBIGUOUS, text: "add fee feel\n" },
    { name: "JSON", source: JSON, text: '{"name": "logos", "version": [0, 16, 1],\n "proved": true, "half": 0.5e-1, oops}\n' },
    { name: "Two enums", source: TWO, text: "let größe = 2.5 * (x1 - 1)\n\nlet y = 7 ?\n" },
];
