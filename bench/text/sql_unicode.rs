#[derive(Logos)]
#[logos(skip r"[ \t\r\n]+")]
#[logos(skip(r"--[^\n]*", allow_greedy = true))]
#[logos(skip r"/\*([^*]|\*+[^*/])*\*+/")]
enum SqlUnicode {
    #[token("select", ignore(case))]
    Select,
    #[token("from", ignore(case))]
    From,
    #[token("where", ignore(case))]
    Where,
    #[token("group", ignore(case))]
    Group,
    #[token("order", ignore(case))]
    Order,
    #[token("having", ignore(case))]
    Having,
    #[token("limit", ignore(case))]
    Limit,
    #[token("union", ignore(case))]
    Union,
    #[token("insert", ignore(case))]
    Insert,
    #[token("into", ignore(case))]
    Into,
    #[token("values", ignore(case))]
    Values,
    #[token("update", ignore(case))]
    Update,
    #[token("delete", ignore(case))]
    Delete,
    #[token("set", ignore(case))]
    Set,
    #[token("join", ignore(case))]
    Join,
    #[token("left", ignore(case))]
    Left,
    #[token("right", ignore(case))]
    Right,
    #[token("full", ignore(case))]
    Full,
    #[token("inner", ignore(case))]
    Inner,
    #[token("outer", ignore(case))]
    Outer,
    #[token("cross", ignore(case))]
    Cross,
    #[token("and", ignore(case))]
    And,
    #[token("or", ignore(case))]
    Or,
    #[token("not", ignore(case))]
    Not,
    #[token("as", ignore(case))]
    As,
    #[token("on", ignore(case))]
    On,
    #[token("by", ignore(case))]
    By,
    #[token("asc", ignore(case))]
    Asc,
    #[token("desc", ignore(case))]
    Desc,
    #[token("distinct", ignore(case))]
    Distinct,
    #[token("null", ignore(case))]
    Null,
    #[token("is", ignore(case))]
    Is,
    #[token("in", ignore(case))]
    In,
    #[token("like", ignore(case))]
    Like,
    #[token("between", ignore(case))]
    Between,
    #[token("exists", ignore(case))]
    Exists,
    #[token("case", ignore(case))]
    Case,
    #[token("when", ignore(case))]
    When,
    #[token("then", ignore(case))]
    Then,
    #[token("else", ignore(case))]
    Else,
    #[token("end", ignore(case))]
    End,
    #[token("create", ignore(case))]
    Create,
    #[token("table", ignore(case))]
    Table,
    #[token("index", ignore(case))]
    Index,
    #[token("view", ignore(case))]
    View,
    #[token("drop", ignore(case))]
    Drop,
    #[token("alter", ignore(case))]
    Alter,
    #[token("add", ignore(case))]
    Add,
    #[token("primary", ignore(case))]
    Primary,
    #[token("key", ignore(case))]
    Key,
    #[token("foreign", ignore(case))]
    Foreign,
    #[token("references", ignore(case))]
    References,
    #[token("unique", ignore(case))]
    Unique,
    #[token("check", ignore(case))]
    Check,
    #[token("default", ignore(case))]
    Default,
    #[token("constraint", ignore(case))]
    Constraint,
    #[token("begin", ignore(case))]
    Begin,
    #[token("commit", ignore(case))]
    Commit,
    #[token("rollback", ignore(case))]
    Rollback,
    #[token("with", ignore(case))]
    With,
    #[token("recursive", ignore(case))]
    Recursive,
    #[token("over", ignore(case))]
    Over,
    #[token("partition", ignore(case))]
    Partition,
    #[regex(r"[\p{XID_Start}_]\p{XID_Continue}*")]
    #[regex(r#""([^"]|"")+""#)]
    Name,
    #[regex(r"[0-9]+(\.[0-9]*)?([eE][+\-]?[0-9]+)?")]
    Number,
    #[regex(r"'([^']|'')*'")]
    Text,
    #[regex(r"[:$][a-zA-Z0-9_]+")]
    Parameter,
    #[regex(r"[-+*/%=<>.,;()]|<>|!=|<=|>=|[|][|]|::")]
    Operator,
}
