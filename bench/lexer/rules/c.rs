#[derive(Logos)]
#[logos(skip r"[ \t\r\n\f\v]+")]
#[logos(skip(r"//[^\n]*", allow_greedy = true))]
#[logos(skip r"/\*([^*]|\*+[^*/])*\*+/")]
#[logos(skip r"\\\r?\n")]
#[logos(subpattern suffix = r"[uU](ll?|LL?)?|(ll?|LL?)[uU]?")]
#[logos(subpattern exponent = r"[eE][+-]?[0-9]+")]
enum C {
    #[token("auto")]
    Auto,
    #[token("break")]
    Break,
    #[token("case")]
    Case,
    #[token("char")]
    Char,
    #[token("const")]
    Const,
    #[token("continue")]
    Continue,
    #[token("default")]
    Default,
    #[token("do")]
    Do,
    #[token("double")]
    Double,
    #[token("else")]
    Else,
    #[token("enum")]
    Enum,
    #[token("extern")]
    Extern,
    #[token("float")]
    Float,
    #[token("for")]
    For,
    #[token("goto")]
    Goto,
    #[token("if")]
    If,
    #[token("inline")]
    Inline,
    #[token("int")]
    Int,
    #[token("long")]
    Long,
    #[token("register")]
    Register,
    #[token("restrict")]
    Restrict,
    #[token("return")]
    Return,
    #[token("short")]
    Short,
    #[token("signed")]
    Signed,
    #[token("sizeof")]
    Sizeof,
    #[token("static")]
    Static,
    #[token("struct")]
    Struct,
    #[token("switch")]
    Switch,
    #[token("typedef")]
    Typedef,
    #[token("union")]
    Union,
    #[token("unsigned")]
    Unsigned,
    #[token("void")]
    Void,
    #[token("volatile")]
    Volatile,
    #[token("while")]
    While,
    #[token("_Bool")]
    Bool,
    #[token("_Static_assert")]
    StaticAssert,
    #[regex(r"#[ \t]*[a-z]+", priority = 5)]
    Directive,
    #[regex(r"#[ \t]*(error|warning)[^\n]*", allow_greedy = true, priority = 9)]
    Message,
    #[regex(r"[A-Za-z_$][A-Za-z0-9_$]*")]
    Name,
    #[regex(r"[^\x00-\x7F]+")]
    Foreign,
    #[regex(r"(0|[1-9][0-9]*|0[0-7]+|0[xX][0-9a-fA-F]+)(?&suffix)?")]
    Whole,
    #[regex(r"([0-9]+\.[0-9]*|\.[0-9]+)(?&exponent)?[fFlL]?|[0-9]+(?&exponent)[fFlL]?", priority = 3)]
    Number,
    #[regex(r#"(u8|[uUL])?"([^"\\\n]|\\[^\n]|\\\n)*""#)]
    Text,
    #[regex(r"[uUL]?'([^'\\\n]|\\[^\n])+'")]
    Character,
    #[regex(r#"["'`\\@]"#)]
    Stray,
    #[regex(r"[-+*/%&|^!=<>()\[\]{};,?:~.#]")]
    #[regex(r"\+\+|--|->|\.\.\.|##|[-+*/%&|^!=<>]=|<<=?|>>=?|&&|\|\|")]
    Operator,
}
