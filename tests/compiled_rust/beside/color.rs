type Tokens<'s> = Color<'s, Vec<&'s str>>;

#[derive(Clone, Debug, Default, PartialEq)]
struct Fault(usize);

impl Fault {
    fn of<'s>(lex: &logos::Lexer<'s, Tokens<'s>>) -> Fault {
        Fault(lex.slice().len())
    }
}

fn code<'s>(lex: &mut logos::Lexer<'s, Tokens<'s>>) -> &'s Vec<&'s str> {
    Box::leak(Box::new(vec![lex.slice()]))
}

fn leaf<'s>(lex: &logos::Lexer<'s, Tokens<'s>>, token: Tokens<'s>) -> usize {
    match token {
        Color::Code(texts) => {
            assert_eq!(*texts, [lex.slice()]);
            1
        }
        Color::Key => 2,
    }
}
