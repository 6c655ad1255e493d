#[logos(crate = self::renamed, utf8 = true, export_dir = "charts", extras = Count<usize>, error(Fault<'s>, callback = Fault::of::<u8>))]
#[logos(skip(r"--[^\n]*", callback = |lex| { lex.extras.0 += 1; }, priority = 30, allow_greedy = true, ignore(case)))]
#[logos(skip r"\s+")]
#[logos(subpattern digit = "[0-9]", type T = Vec<&'a str>)]
enum Every<'a, T> {
    #[token("select", callback = kept, priority = 20, ignore(case))]
    Select(&'a str),
    #[regex("(?&digit)(_?(?&digit))*n?", |lex| vec![lex.slice()], priority = 6, ignore(case), allow_greedy = false)]
    Number(T),
    #[regex("#.*", callback = |lex| lex.slice().len(), priority = 4, ignore(case), allow_greedy = true)]
    Rest(usize),
    #[regex("[a-z]+", ignore(case))]
    Name,
}
