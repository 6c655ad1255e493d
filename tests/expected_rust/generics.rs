#[logos(crate = my::logos, utf8 = false)]
#[logos(error(Fault<'s>, callback = made))]
#[logos(extras = (Vec<&'s [u8]>, bool))]
#[logos(type T = Vec<&[u8]>)]
#[logos(type U = dyn Fn(&str) -> T)]
enum Generics<'a, T: Default, U> where T: Clone {
    #[token(b"\xFF", held)]
    Held(&'a T),
    #[token("x", |lex| cow(lex))]
    Plain(Cow<'a, U>),
}
