#[derive(Logos)]
#[logos(utf8 = false)]
#[logos(skip "[ \t]+")]
#[logos(subpattern byte = "25[0-5]|2[0-4][0-9]|1?[0-9]?[0-9]")]
enum Httplog {
    #[regex(r"(?&byte)(\.(?&byte)){3}")]
    #[regex("[0-9a-fA-F]{0,4}(:[0-9a-fA-F]{0,4}){2,7}")]
    Address,
    #[token("-", priority = 5)]
    Missing,
    #[regex(r"\[[0-9]{2}/[A-Z][a-z]{2}/[0-9]{4}:[0-9]{2}:[0-9]{2}:[0-9]{2} [+-][0-9]{4}\]")]
    Date,
    #[regex(br#""(GET|HEAD|POST|PUT|DELETE|OPTIONS|PATCH) [^" ]+ HTTP/[0-9](\.[0-9])?""#, priority = 50)]
    Request,
    #[regex(br#""([^"\\\n]|\\[^\n])*""#)]
    Quoted,
    #[regex("[1-5][0-9]{2}", priority = 9)]
    Status,
    #[regex("[0-9]+")]
    Number,
    #[regex(r"[0-9]+\.[0-9]{3}")]
    Seconds,
    #[regex(br"[^ \t\r\n\[\x22]+", priority = 1)]
    Word,
    #[regex(r"\r?\n")]
    LineEnd,
}
