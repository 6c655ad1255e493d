#[derive(Logos)]
#[logos(subpattern start = r"[:A-Z_a-z]|[^\x00-\x7F]")]
#[logos(subpattern rest = r"[:A-Z_a-z\-.0-9]|[^\x00-\x7F]")]
#[logos(subpattern name = r"(?&start)(?&rest)*")]
#[logos(subpattern blank = r"[ \t\r\n]")]
#[logos(subpattern tag = r#"<(?&name)((?&blank)+(?&name)(?&blank)*=(?&blank)*("[^<"]*"|'[^<']*'))*(?&blank)*"#)]
enum Xml {
    #[regex(r"[^<&\n]+", priority = 1)]
    Text,
    #[regex(r"\n[ \t\r\n]*", priority = 4)]
    Layout,
    #[regex("(?&tag)>")]
    Open,
    #[regex("(?&tag)/>")]
    Empty,
    #[regex("</(?&name)(?&blank)*>")]
    Close,
    #[regex("&(?&name);")]
    Entity,
    #[regex("&#([0-9]+|x[0-9a-fA-F]+);")]
    Character,
    #[regex("<!--([^-]|-[^-])*-->")]
    Comment,
    #[regex(r"<!\[CDATA\[([^\]]|\]+[^\]>])*\]\]+>")]
    Data,
    #[regex(r"<\?(?&name)((?&blank)([^?]|\?+[^?>])*)?\?+>")]
    Instruction,
    #[regex(r"<!DOCTYPE([^\[\]<>]|\[[^\]]*\])*>")]
    Doctype,
    #[token("<", priority = 1)]
    #[token("&", priority = 1)]
    Stray,
}
