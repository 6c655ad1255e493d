type Tokens = Notes;

/// An error that knows where it was made, and how: by the function that makes errors, or by a
/// callback that refuses.
#[derive(Clone, Debug, Default, PartialEq)]
struct Fault {
    from: usize,
    to: usize,
    maker: &'static str,
}

/// What the function that makes errors gives.
struct Made(std::ops::Range<usize>, usize);

/// What a callback that refuses gives.
struct Refused(std::ops::Range<usize>);

impl From<Made> for Fault {
    fn from(made: Made) -> Fault {
        Fault { from: made.0.start, to: made.0.start + made.1, maker: "fault" }
    }
}

impl From<Refused> for Fault {
    fn from(refused: Refused) -> Fault {
        Fault { from: refused.0.start, to: refused.0.end, maker: "callback" }
    }
}

fn say(what: &str, lex: &logos::Lexer<'_, Notes>) {
    println!("{what} {}..{}", lex.span().start, lex.span().end);
}

fn fault<'s>(lex: &mut logos::Lexer<'s, Notes>) -> Made {
    say("made", lex);
    Made(lex.span(), lex.slice().len())
}

fn line<'s>(lex: &mut logos::Lexer<'s, Notes>) {
    assert_eq!(lex.slice(), "\n");
    say("token 1", lex);
}

fn comment<'s>(lex: &mut logos::Lexer<'s, Notes>) -> logos::Skip {
    assert!(lex.slice().starts_with("//"));
    say("token 2", lex);
    logos::Skip
}

fn digits<'s>(lex: &mut logos::Lexer<'s, Notes>) -> Result<(), Refused> {
    if lex.slice().len() == 1 || !lex.slice().as_bytes()[1].is_ascii_digit() {
        return Err(Refused(lex.span()));
    }
    say("token 3", lex);
    Ok(())
}

fn paragraph<'s>(lex: &mut logos::Lexer<'s, Notes>) -> Result<(), Fault> {
    assert_eq!(lex.slice(), "¶");
    say("token 5", lex);
    Ok(())
}

fn letter<'s>(lex: &mut logos::Lexer<'s, Notes>) -> Option<u8> {
    match lex.slice().as_bytes() {
        [letter] => Some(*letter),
        _ => None,
    }
}

fn tag<'s>(lex: &mut logos::Lexer<'s, Notes>) -> Result<usize, Refused> {
    match lex.slice().len() {
        2 => Err(Refused(lex.span())),
        length => Ok(length),
    }
}

fn sign<'s>(lex: &mut logos::Lexer<'s, Notes>) -> logos::FilterResult<char, Refused> {
    match lex.slice() {
        "+" => logos::FilterResult::Emit('+'),
        "-" => logos::FilterResult::Skip,
        _ => logos::FilterResult::Error(Refused(lex.span())),
    }
}

fn accent<'s>(lex: &mut logos::Lexer<'s, Notes>) -> logos::Filter<()> {
    match lex.slice() {
        "é" => logos::Filter::Emit(()),
        _ => logos::Filter::Skip,
    }
}

fn leaf(lex: &logos::Lexer<'_, Tokens>, token: Tokens) -> usize {
    match token {
        Notes::Yes => 6,
        Notes::No => 7,
        Notes::Letter(letter) => {
            assert_eq!([letter], *lex.slice().as_bytes());
            8
        }
        Notes::Tag(length) => {
            assert_eq!(length, lex.slice().len());
            10
        }
        Notes::Tilde => 12,
        Notes::Sign(sign) => {
            assert_eq!(sign, '+');
            13
        }
        Notes::Accent => 16,
        Notes::Maybe => 18,
    }
}

/// An error has the value that was made at its place, by a callback just where the match is one
/// that it refuses.
fn told(lex: &logos::Lexer<'_, Tokens>, fault: Fault) {
    let refused = lex.slice().starts_with('#') || ["<>", "*"].contains(&lex.slice());
    assert_eq!((fault.from, fault.to), (lex.span().start, lex.span().end));
    assert_eq!(fault.maker, if refused { "callback" } else { "fault" });
}
