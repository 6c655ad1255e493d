#[derive(Logos)]
#[logos(utf8 = false)]
#[logos(skip " +")]
#[logos(subpattern byte = "25[0-5]|2[0-4][0-9]|1[0-9][0-9]|[1-9]?[0-9]")]
enum Access {
    #[regex(r"(?&byte)\.(?&byte)\.(?&byte)\.(?&byte)")]
    #[regex("[0-9a-f]{0,4}(:[0-9a-f]{0,4}){2,7}", ignore(case))]
    Address,
    #[regex(r"\[[0-9]{2}/(Jan|Feb|Mar|Apr|May|Jun|Jul|Aug|Sep|Oct|Nov|Dec)/[0-9]{4}(:[0-9]{2}){3} [+\-][0-9]{4}\]")]
    Date,
    #[regex(r#""(GET|HEAD|POST|PUT|DELETE|PATCH|OPTIONS|CONNECT|TRACE) [^" ]* HTTP/[0-9]+(\.[0-9]+)?""#)]
    Request,
    #[regex(br#""([^"\\]|\\[^\n])*""#, is_short)]
    Quoted,
    #[regex("[1-5][0-9]{2}", priority = 20)]
    Status,
    #[regex("[0-9]+")]
    Number,
    #[token("-")]
    Nothing,
    #[regex(r"[a-zA-Z_][a-zA-Z0-9_.\-]*", is_short)]
    Name,
    #[token("\n")]
    LineEnd,
}
