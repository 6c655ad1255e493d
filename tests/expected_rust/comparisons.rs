#[logos(error = Vec<u8>, utf8 = false)]
enum Comparisons {
    #[regex("[0-9A-F]+")]
    Digits,
    #[regex(br#"-[^-][\\']"[\t ][!-(*-\xFF][^ac]"#)]
    Signs,
}
