#[derive(Logos)]
#[logos(subpattern blank = r"[ \t\r\n]*")]
#[logos(subpattern name = r"[a-zA-Z_][a-zA-Z0-9_.-]*|\.")]
enum Mustache {
    #[regex(r"([^{]|\{[^{])+")]
    Text,
    #[regex(r"\{\{(?&blank)(?&name)(?&blank)\}\}")]
    Variable,
    #[regex(r"\{\{\{(?&blank)(?&name)(?&blank)\}\}\}")]
    #[regex(r"\{\{&(?&blank)(?&name)(?&blank)\}\}")]
    Raw,
    #[regex(r"\{\{#(?&blank)(?&name)(?&blank)\}\}")]
    Section,
    #[regex(r"\{\{\^(?&blank)(?&name)(?&blank)\}\}")]
    Inverted,
    #[regex(r"\{\{/(?&blank)(?&name)(?&blank)\}\}")]
    Close,
    #[regex(r"\{\{>(?&blank)(?&name)(?&blank)\}\}")]
    Partial,
    #[regex(r"\{\{![^}]*\}\}")]
    Comment,
}
