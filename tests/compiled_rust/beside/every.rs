use logos as renamed;

type Tokens<'s> = Every<'s, Vec<&'s str>>;

#[derive(Default)]
struct Count<N>(N);

#[derive(Clone, Debug, Default, PartialEq)]
struct Fault<'s>(&'s str);

impl<'s> Fault<'s> {
    fn of<N>(lex: &logos::Lexer<'s, Tokens<'s>>) -> Fault<'s> {
        Fault(lex.slice())
    }
}

fn kept<'s>(lex: &mut logos::Lexer<'s, Tokens<'s>>) -> &'s str {
    lex.slice()
}

fn leaf<'s>(lex: &logos::Lexer<'s, Tokens<'s>>, token: Tokens<'s>) -> usize {
    match token {
        Every::Select(text) => {
            assert_eq!(text, lex.slice());
            2
        }
        Every::Number(texts) => {
            assert_eq!(texts, [lex.slice()]);
            3
        }
        Every::Rest(length) => {
            assert_eq!(length, lex.slice().len());
            4
        }
        Every::Name => 5,
    }
}
