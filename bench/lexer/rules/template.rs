#[derive(Logos)]
#[logos(subpattern path = r"[a-zA-Z_][a-zA-Z0-9_]*(\.[a-zA-Z0-9_]+)*")]
enum Template {
    #[regex(r"[^{ \t\r\n\\]+")]
    #[token("{")]
    #[token("\\")]
    Text,
    #[regex(r"[ \t]+")]
    Blanks,
    #[regex(r"[ \t]+(?m:$)", priority = 9)]
    LastBlanks,
    #[regex(r"\r?\n")]
    #[token("\r")]
    LineEnd,
    #[token("\\{{")]
    Escaped,
    #[regex(r"\{\{\{?[#/\^&]?[ ]*(?&path)([ ]*\|[ ]*(?&path))*[ ]*\}\}\}?", is_short)]
    Tag,
    #[regex(r"\{\{!([^}]|\}[^}])*\}\}")]
    Comment,
    #[token("{{")]
    #[token("{{{")]
    Open,
}
