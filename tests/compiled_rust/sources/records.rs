#[logos(utf8 = false, error = Fault)]
#[logos(extras = Count)]
#[logos(skip(b"\x00+", callback = zeros))]
#[logos(subpattern high = b"[\x80-\xFF]")]
#[logos(subpattern word = "[a-z]+")]
enum Records<'s> {
    #[token(b"\xFF\xFE", priority = 5)]
    Order,
    #[token(b"end", ignore(case), callback = |lex| lex.extras.0 += 1)]
    End,
    #[regex(b"(?&high)(?&high)+", |lex| lex.slice().len())]
    High(usize),
    #[regex("(?&word)", priority = 1)]
    Word(&'s [u8]),
    #[regex("(?i)(?&word):", marked)]
    Marked([u8; 1]),
    #[regex(b"[0-9]", |lex| { (lex.slice()[0], lex.span().start) })]
    Digit((u8, usize)),
    #[regex(r"<(?-u:\b)[^>]*>", |lex| Box::new(lex.slice().to_vec()))]
    Boxed(Box<Vec<u8>>),
}
