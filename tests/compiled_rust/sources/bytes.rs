#[logos(utf8 = false)]
enum Bytes {
    #[token(b"\xFF\xFE")]
    Mark,
    #[regex(b"[\x80-\xBF]+")]
    Behind,
    #[regex("[a-z]+")]
    Word,
}
