#[logos(crate = self::renamed)]
#[logos(extras = (usize, Vec<&'s str>))]
#[logos(error(Fault<'s>, |lex| Fault(lex.slice())))]
#[logos(skip r"[ \t\r]+")]
#[logos(skip("\n", |lex| { lex.extras.0 += 1; }))]
#[logos(skip(r"//[^\n]*", note, allow_greedy = true, priority = 5))]
#[logos(subpattern digits = r"[0-9](_?[0-9])*")]
#[logos(subpattern exponent = r"[eE][+-]?(?&digits)")]
#[logos(subpattern letter = r"[\p{L}_]")]
#[logos(type N = u64, type P = Pair<&'a str>)]
enum Values<'a, N: Sized, P> {
    #[token("let")]
    #[token("var", priority = 9)]
    Let,
    #[token("select", ignore(case))]
    Select,
    #[token("true", |_| true)]
    #[token("false", callback = |_| false)]
    Truth(bool),
    #[regex("(?&digits)", |lex| number(lex.slice()), priority = 4)]
    Number(N),
    #[regex(r"(?&digits)\.(?&digits)((?&exponent))?")]
    Decimal(&'a str),
    #[regex(r"(?&letter)((?&letter)|[0-9])*", kept)]
    Name(&'a str),
    #[regex("\"([^\"\\\\\n]|\\\\.)*\"", |lex| { let text = lex.slice(); &text[1..text.len() - 1] })]
    Text(&'a str),
    #[regex(r"(?&letter)+=(?&digits)", self::halves)]
    Pair(P),
    #[regex("[+*/=;-]", |lex| sign(lex))]
    Sign(Option<char>),
    #[regex("#[a-z]+", |_| true)]
    #[regex("@(?i)[a-z]+", |_| Some(()))]
    Mark,
    #[regex("%[a-z]*", unit)]
    r#Final,
}
