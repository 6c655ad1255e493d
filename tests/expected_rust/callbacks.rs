#[logos(extras = Pair<usize>, error(Fault, |lex| Fault::of(lex)))]
#[logos(skip "a")]
#[logos(skip("aa", left_out))]
#[logos(skip("aaa", |lex| { lex.extras.0 += 1; }))]
enum Callbacks {
    #[token("aaaa")]
    Unit,
    #[token("aaaaa", path::Of::<u8>, priority = 10)]
    UnitBy,
    #[token("aaaaaa", |lex| lex.slice().len() >= 6)]
    UnitIn,
    #[token("aaaaaaa")]
    Value(&'static str),
    #[token("aaaaaaaa", path::value)]
    ValueBy((usize, u8)),
    #[token("aaaaaaaaa", callback = |lex| { Some(lex.slice()) })]
    ValueIn(Option<[u8; 9]>),
}
