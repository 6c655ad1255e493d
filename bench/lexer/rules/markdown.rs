#[derive(Logos)]
enum Markdown {
    #[token("\n")]
    LineEnd,
    #[regex(r"\n[ \t]*\n[ \t\n]*", priority = 5)]
    Blank,
    #[regex(r"[^\\`*_\[\]()<>!&~\n#|:\-]+", priority = 1)]
    Text,
    #[regex(r"`[^`\n]+`")]
    #[regex(r"``[^\n`]+(`[^`\n]+)*``", priority = 6)]
    Code,
    #[regex(r"```[^`\n]*\n([^`]|`[^`]|``[^`])*```", priority = 20)]
    Block,
    #[regex(r"\*\*?\*?|__?_?|~~")]
    Mark,
    #[regex(r"!?\[[^\]\[\n]*\]\([^) \t\n]*([ \t]+\x22[^\x22\n]*\x22)?\)", priority = 30)]
    #[regex(r"!?\[[^\]\[\n]*\]\[[^\]\[\n]*\]", priority = 29)]
    Link,
    #[regex(r"<(https?|ftp|mailto):[^ <>\n]+>", priority = 28)]
    Address,
    #[regex(r"</?[A-Za-z][A-Za-z0-9\-]*([ \t\n]+[A-Za-z_:][A-Za-z0-9_.:\-]*(=([^ \t\n\x22'=<>`]+|'[^']*'|\x22[^\x22]*\x22))?)*[ \t\n]*/?>", priority = 27)]
    Tag,
    #[regex(r"&([A-Za-z][A-Za-z0-9]*|#[0-9]{1,7}|#[xX][0-9A-Fa-f]{1,6});", priority = 26)]
    Entity,
    #[regex(r"\\[!-/:-@\[-`{-~\n]", priority = 12)]
    Escape,
    #[regex(r"#{1,6}[ \t]", priority = 15)]
    Heading,
    #[regex(r"---+|:-+:?|\|")]
    Rule,
    #[regex(r"[\\`\[\]()<>!&~#:\-]", priority = 2)]
    Sign,
}
