#[logos(utf8 = false)]
#[logos(skip " +")]
#[logos(subpattern byte = "25[0-5]|2[0-4][0-9]|1[0-9][0-9]|[1-9]?[0-9]")]
enum Log {
    #[regex(r"(?&byte)\.(?&byte)\.(?&byte)\.(?&byte)")]
    #[regex("[0-9a-f]{0,4}(:[0-9a-f]{0,4}){2,7}", ignore(case))]
    Address,
    #[regex(r"\[[0-9]{2}/(Jan|Feb|Mar|Apr|May|Jun|Jul|Aug|Sep|Oct|Nov|Dec)/[0-9]{4}(:[0-9]{2}){3} [+\-][0-9]{4}\]")]
    Date,
    #[regex(r#""(GET|HEAD|POST|PUT|DELETE|PATCH|OPTIONS|CONNECT|TRACE) [^" \n]* HTTP/[0-9]+(\.[0-9]+)?""#)]
    Request,
    #[regex(br#""([^"\\\n]|\\[^\n])*""#)]
    Quoted,
    #[regex("[1-5][0-9]{2}", priority = 20)]
    Status,
    #[regex("[0-9]+")]
    Number,
    #[token("-")]
    Nothing,
    #[regex(r"[a-zA-Z_][a-zA-Z0-9_.\-]*")]
    Name,
    #[token("\n")]
    LineEnd,
    // Malformed tokens.
    #[regex(br#""([^"\\\n]|\\[^\n])*"#)]
    Unclosed,
    #[regex(r"\[[^\]\n]*\]", priority = 1)]
    OtherDate,
}
