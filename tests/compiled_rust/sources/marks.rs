#[logos(utf8 = false)]
#[logos(error(Fault, callback = |lexer| { say("made", lexer); Fault::of(lexer) }))]
#[logos(skip(b"\x00+", |lex| { say("token 0", lex); }))]
#[logos(skip("[ \n]", |lex| blank(lex)))]
#[logos(skip(b"\xFE[\x80-\xBF]*", |lex| { say("token 2", lex); Ok::<(), Fault>(()) }))]
#[logos(skip(b"\xFF", |lex| refuse(lex)))]
enum Marks<'s> {
    #[regex("[a-z]+")]
    Word(&'s [u8]),
    #[regex("[0-9][0-9]?", |lex| lex.slice().len() < 3)]
    #[regex("[0-9][0-9][0-9]+", |lex| lex.slice().len() < 3)]
    Number,
    #[regex("'[a-z]*'", quoted)]
    #[regex(b"'[\x80-\xFF]*'", quoted, priority = 1)]
    Quoted(&'s str),
}
