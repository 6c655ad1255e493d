#[logos(skip r"[ \t\r\n]+")]
#[logos(skip(r"--[^\n]*", allow_greedy = true))]
#[logos(skip r"/\*([^*]|\*+[^*/])*\*+/")]
enum Query {
    // Words that begin a line.
    #[token("select", ignore(case))] #[token("from", ignore(case))] #[token("where", ignore(case))]
    #[token("group", ignore(case))] #[token("order", ignore(case))] #[token("having", ignore(case))]
    #[token("limit", ignore(case))] #[token("union", ignore(case))] #[token("values", ignore(case))]
    #[token("insert", ignore(case))] #[token("update", ignore(case))] #[token("delete", ignore(case))]
    #[token("set", ignore(case))] #[token("with", ignore(case))]
    #[regex("(left|right|full|inner|cross)[ \t\r\n]+(outer[ \t\r\n]+)?join|join", ignore(case), priority = 30)]
    Clause,
    // Words that begin a line further in.
    #[token("and", ignore(case))] #[token("or", ignore(case))]
    Connective,
    #[token("as", ignore(case))] #[token("on", ignore(case))] #[token("by", ignore(case))]
    #[token("asc", ignore(case))] #[token("desc", ignore(case))] #[token("distinct", ignore(case))]
    #[token("all", ignore(case))] #[token("not", ignore(case))] #[token("null", ignore(case))]
    #[token("is", ignore(case))] #[token("in", ignore(case))] #[token("like", ignore(case))]
    #[token("between", ignore(case))] #[token("exists", ignore(case))] #[token("case", ignore(case))]
    #[token("when", ignore(case))] #[token("then", ignore(case))] #[token("else", ignore(case))]
    #[token("end", ignore(case))] #[token("into", ignore(case))] #[token("using", ignore(case))]
    Word,
    #[regex("[a-zA-Z_][a-zA-Z0-9_$]*")]
    #[regex(r#""([^"]|"")+""#)]
    Name,
    #[regex("'([^']|'')*'")]
    Text,
    #[regex(r"[0-9]+(\.[0-9]+)?([eE][+\-]?[0-9]+)?")]
    Number,
    #[regex(r"[:@$][a-zA-Z0-9_]+|\?")]
    Parameter,
    #[regex(r"[+\-*/%<>=]|<>|<=|>=|!=|\|\||::")]
    Operator,
    #[token(",")]
    Comma,
    #[token(".")]
    Point,
    #[token("(")]
    Open,
    #[token(")")]
    Close,
    #[token(";")]
    Last,
    // Malformed tokens.
    #[regex("'([^']|'')*")]
    #[regex(r#""([^"]|"")*"#)]
    Unclosed,
}
