type Tokens<'s> = Marks<'s>;

/// An error that knows its bytes, and how many of the callbacks that refuse have made it.
#[derive(Clone, Debug, Default, PartialEq)]
struct Fault {
    bytes: Vec<u8>,
    from: usize,
    refusals: usize,
}

impl Fault {
    fn of<'s>(lex: &logos::Lexer<'s, Marks<'s>>) -> Fault {
        Fault { bytes: lex.slice().to_vec(), from: lex.span().start, refusals: 0 }
    }
}

fn say<'s>(what: &str, lex: &logos::Lexer<'s, Marks<'s>>) {
    println!("{what} {}..{}", lex.span().start, lex.span().end);
}

fn blank<'s>(lex: &mut logos::Lexer<'s, Marks<'s>>) -> logos::Skip {
    assert!(lex.slice() == b" " || lex.slice() == b"\n");
    say("token 1", lex);
    logos::Skip
}

fn refuse<'s>(lex: &mut logos::Lexer<'s, Marks<'s>>) -> Result<(), Fault> {
    Err(Fault { refusals: 1, ..Fault::of(lex) })
}

fn quoted<'s>(lex: &mut logos::Lexer<'s, Marks<'s>>) -> Option<&'s str> {
    std::str::from_utf8(lex.slice()).ok().filter(|text| text.is_ascii())
}

fn leaf<'s>(lex: &logos::Lexer<'s, Tokens<'s>>, token: Tokens<'s>) -> usize {
    match token {
        Marks::Word(bytes) => {
            assert_eq!(bytes, lex.slice());
            4
        }
        Marks::Number => 5,
        Marks::Quoted(text) => {
            assert_eq!(text.as_bytes(), lex.slice());
            7
        }
    }
}

/// An error has the value that was made at its place, by a callback just where the match is one
/// that it refuses.
fn told<'s>(lex: &logos::Lexer<'s, Tokens<'s>>, fault: Fault) {
    assert_eq!((fault.from, &fault.bytes[..]), (lex.span().start, lex.slice()));
    assert_eq!(fault.refusals, if lex.slice() == b"\xFF" { 1 } else { 0 });
}
