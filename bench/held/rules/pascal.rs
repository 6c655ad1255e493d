//! Units in Object Pascal, whose keywords are in any case. A number may be before a range's dots.

use logos::Logos;

#[derive(Logos, Clone, Copy, Debug, PartialEq)]
#[logos(skip r"[ \t\r\n]+")]
#[logos(skip(r"//[^\n]*", allow_greedy = true))]
#[logos(skip(r"\{[^}]*\}", priority = 1))]
#[logos(skip r"\(\*([^*]|\*+[^*)])*\*+\)")]
pub enum Token {
    #[token("and", ignore(case))]
    And,
    #[token("array", ignore(case))]
    Array,
    #[token("as", ignore(case))]
    As,
    #[token("begin", ignore(case))]
    Begin,
    #[token("case", ignore(case))]
    Case,
    #[token("class", ignore(case))]
    Class,
    #[token("const", ignore(case))]
    Const,
    #[token("constructor", ignore(case))]
    Constructor,
    #[token("destructor", ignore(case))]
    Destructor,
    #[token("div", ignore(case))]
    Div,
    #[token("do", ignore(case))]
    Do,
    #[token("downto", ignore(case))]
    Downto,
    #[token("else", ignore(case))]
    Else,
    #[token("end", ignore(case))]
    End,
    #[token("except", ignore(case))]
    Except,
    #[token("false", ignore(case))]
    False,
    #[token("file", ignore(case))]
    File,
    #[token("finalization", ignore(case))]
    Finalization,
    #[token("finally", ignore(case))]
    Finally,
    #[token("for", ignore(case))]
    For,
    #[token("function", ignore(case))]
    Function,
    #[token("goto", ignore(case))]
    Goto,
    #[token("if", ignore(case))]
    If,
    #[token("implementation", ignore(case))]
    Implementation,
    #[token("in", ignore(case))]
    In,
    #[token("inherited", ignore(case))]
    Inherited,
    #[token("initialization", ignore(case))]
    Initialization,
    #[token("interface", ignore(case))]
    Interface,
    #[token("is", ignore(case))]
    Is,
    #[token("label", ignore(case))]
    Label,
    #[token("mod", ignore(case))]
    Mod,
    #[token("nil", ignore(case))]
    Nil,
    #[token("not", ignore(case))]
    Not,
    #[token("object", ignore(case))]
    Object,
    #[token("of", ignore(case))]
    Of,
    #[token("or", ignore(case))]
    Or,
    #[token("packed", ignore(case))]
    Packed,
    #[token("procedure", ignore(case))]
    Procedure,
    #[token("program", ignore(case))]
    Program,
    #[token("property", ignore(case))]
    Property,
    #[token("private", ignore(case))]
    Private,
    #[token("protected", ignore(case))]
    Protected,
    #[token("public", ignore(case))]
    Public,
    #[token("raise", ignore(case))]
    Raise,
    #[token("record", ignore(case))]
    Record,
    #[token("repeat", ignore(case))]
    Repeat,
    #[token("set", ignore(case))]
    Set,
    #[token("shl", ignore(case))]
    Shl,
    #[token("shr", ignore(case))]
    Shr,
    #[token("string", ignore(case))]
    String,
    #[token("then", ignore(case))]
    Then,
    #[token("to", ignore(case))]
    To,
    #[token("true", ignore(case))]
    True,
    #[token("try", ignore(case))]
    Try,
    #[token("type", ignore(case))]
    Type,
    #[token("unit", ignore(case))]
    Unit,
    #[token("until", ignore(case))]
    Until,
    #[token("uses", ignore(case))]
    Uses,
    #[token("var", ignore(case))]
    Var,
    #[token("while", ignore(case))]
    While,
    #[token("with", ignore(case))]
    With,
    #[token("xor", ignore(case))]
    Xor,
    #[token(":=")]
    Assign,
    #[token("..")]
    Range,
    #[token("=")]
    Equal,
    #[token("<>")]
    NotEqual,
    #[token("<")]
    Less,
    #[token("<=")]
    LessEqual,
    #[token(">")]
    Greater,
    #[token(">=")]
    GreaterEqual,
    #[token("+")]
    Plus,
    #[token("-")]
    Minus,
    #[token("*")]
    Times,
    #[token("/")]
    Divide,
    #[token("^")]
    Pointer,
    #[token("@")]
    Address,
    #[token("(")]
    Open,
    #[token(")")]
    Close,
    #[token("[")]
    BracketOpen,
    #[token("]")]
    BracketClose,
    #[token(",")]
    Comma,
    #[token(";")]
    Semicolon,
    #[token(":")]
    Colon,
    #[token(".")]
    Dot,
    #[regex(r"[A-Za-z_][A-Za-z0-9_]*")]
    Name,
    #[regex(r"[0-9]+")]
    Integer,
    #[regex(r"[0-9]+\.[0-9]+([eE][+\-]?[0-9]+)?")]
    Real,
    #[regex(r"[0-9]+[eE][+\-]?[0-9]+")]
    Power,
    #[regex(r"\$[0-9A-Fa-f]+")]
    Hexadecimal,
    #[regex(r"'([^'\n]|'')*'")]
    Quoted,
    #[regex(r"#(\$[0-9A-Fa-f]+|[0-9]+)")]
    Character,
    #[regex(r"\{\$[A-Za-z][^}]*\}", priority = 6)]
    Directive,
}
