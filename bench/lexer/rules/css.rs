#[derive(Logos)]
#[logos(skip r"[ \t\r\n]+")]
#[logos(skip r"/\*([^*]|\*+[^*/])*\*+/")]
#[logos(subpattern start = r"[a-zA-Z_]|[^\x00-\x7F]|\\[^\n]")]
#[logos(subpattern rest = r"[a-zA-Z0-9_\-]|[^\x00-\x7F]|\\[^\n]")]
#[logos(subpattern name = r"(--|-?(?&start))(?&rest)*")]
#[logos(subpattern number = r"[+\-]?([0-9]+(\.[0-9]+)?|\.[0-9]+)([eE][+\-]?[0-9]+)?")]
enum Css {
    #[regex("(?&name)", priority = 4)]
    Name,
    #[regex(r"(?&name)\(")]
    Function,
    #[regex(r"url\([ \t]*[^ \t\r\n()\x22'\\]*[ \t]*\)", ignore(case), callback = is_short, priority = 40)]
    Url,
    #[regex("@(?&name)")]
    At,
    #[regex("#(?&rest)+", is_short)]
    Hash,
    #[regex("(?&number)", priority = 6)]
    Number,
    #[regex("(?&number)%", priority = 5)]
    Percentage,
    #[regex("(?&number)(?&name)", is_short, priority = 5)]
    Dimension,
    #[regex(r#""([^"\\\n]|\\[^\n]|\\\n)*""#, is_short)]
    #[regex(r"'([^'\\\n]|\\[^\n]|\\\n)*'", is_short)]
    Text,
    #[token("<!--")]
    #[token("-->")]
    Mark,
    #[regex(r"[~|^$*]=")]
    Match,
    #[regex(r"[:;,(){}.<>+~*|=!&/\-]|\[|\]")]
    Sign,
}
