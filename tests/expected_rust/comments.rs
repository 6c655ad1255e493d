#[logos(crate = my::logos /// of mine
, error = Fault /// of the lexer
, extras = u8 /** a count */)]
enum Letters {
    #[regex("[a-z]+")]
    Word,
}
