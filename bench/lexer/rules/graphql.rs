#[derive(Logos)]
#[logos(skip r"[ \t\r\n,]+")]
#[logos(skip(r"#[^\n\r]*", allow_greedy = true))]
#[logos(subpattern int = "-?(0|[1-9][0-9]*)")]
#[logos(subpattern exponent = "[eE][+-]?[0-9]+")]
enum Graphql {
    #[token("query")]
    Query,
    #[token("mutation")]
    Mutation,
    #[token("subscription")]
    Subscription,
    #[token("fragment")]
    Fragment,
    #[token("on")]
    On,
    #[token("type")]
    Type,
    #[token("interface")]
    Interface,
    #[token("union")]
    Union,
    #[token("enum")]
    Enum,
    #[token("input")]
    Input,
    #[token("scalar")]
    Scalar,
    #[token("schema")]
    Schema,
    #[token("directive")]
    Directive,
    #[token("extend")]
    Extend,
    #[token("implements")]
    Implements,
    #[token("true")]
    True,
    #[token("false")]
    False,
    #[token("null")]
    Null,
    #[regex("[_A-Za-z][_0-9A-Za-z]*")]
    Name,
    #[regex("(?&int)")]
    Int,
    #[regex(r"(?&int)(\.[0-9]+(?&exponent)?|(?&exponent))")]
    Float,
    #[regex(r#""([^"\\\n\r]|\\["\\/bfnrt]|\\u[0-9A-Fa-f]{4})*""#)]
    Text,
    #[regex(r#""""([^"\\]|\\"""|\\[^"]|"[^"]|""[^"])*""""#, priority = 30)]
    Block,
    #[token("...")]
    Spread,
    #[regex(r"[!$&():=@\[\]{|}]")]
    Sign,
}
