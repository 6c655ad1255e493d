#[derive(Debug, Logos)]
#[logos(export_dir = "charts/small", extras = Count, error(Fault<'s>, Fault::of), crate = lexing::logos)]
#[logos(skip(" +", |lex| lex.extras.0 += 1, priority = 3))]
#[logos(subpattern digit = "[0-9]")]
#[logos(type N = Vec<&'a u8>)]
enum Whole<'a, N> {
    #[token("let", ignore(case), callback = keyword)]
    Let,
    #[regex("(?&digit)+", |lex| number(lex.slice()))]
    Number(N),
    #[regex("[a-z]+")]
    Name(&'a str),
}
