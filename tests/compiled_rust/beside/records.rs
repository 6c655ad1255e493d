type Tokens<'s> = Records<'s>;

#[derive(Clone, Debug, Default, PartialEq)]
struct Fault;

#[derive(Default)]
struct Count(usize);

fn zeros<'s>(lex: &mut logos::Lexer<'s, Records<'s>>) -> logos::Skip {
    lex.extras.0 += lex.slice().len();
    logos::Skip
}

fn marked<'s>(lex: &mut logos::Lexer<'s, Records<'s>>) -> Result<[u8; 1], Fault> {
    Ok([lex.slice()[0]])
}

fn leaf<'s>(lex: &logos::Lexer<'s, Tokens<'s>>, token: Tokens<'s>) -> usize {
    match token {
        Records::Order => 1,
        Records::End => 2,
        Records::High(length) => {
            assert_eq!(length, lex.slice().len());
            3
        }
        Records::Word(text) => {
            assert_eq!(text, lex.slice());
            4
        }
        Records::Marked(first) => {
            assert_eq!(first[..], lex.slice()[..1]);
            5
        }
        Records::Digit((digit, place)) => {
            assert_eq!((digit, place), (lex.slice()[0], lex.span().start));
            6
        }
        Records::Boxed(text) => {
            assert_eq!(text[..], *lex.slice());
            7
        }
    }
}
