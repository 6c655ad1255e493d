use logos as renamed;

type Tokens<'s> = Values<'s, u64, Pair<&'s str>>;

#[derive(Clone, Debug, Default, PartialEq)]
struct Fault<'s>(&'s str);

struct Pair<T>(T, T);

fn number(text: &str) -> u64 {
    text.bytes().filter(|byte| *byte != b'_').fold(0, |sum, byte| sum.wrapping_mul(10).wrapping_add(u64::from(byte - b'0')))
}

fn note<'s>(lex: &mut logos::Lexer<'s, Tokens<'s>>) {
    lex.extras.1.push(lex.slice());
}

fn kept<'s>(lex: &mut logos::Lexer<'s, Tokens<'s>>) -> Result<&'s str, Fault<'s>> {
    Ok(lex.slice())
}

fn halves<'s>(lex: &mut logos::Lexer<'s, Tokens<'s>>) -> Option<Pair<&'s str>> {
    let (name, value) = lex.slice().split_once('=')?;
    Some(Pair(name, value))
}

fn sign<'s>(lex: &mut logos::Lexer<'s, Tokens<'s>>) -> Option<Option<char>> {
    Some(lex.slice().chars().next())
}

fn unit<'s>(_: &mut logos::Lexer<'s, Tokens<'s>>) -> Result<(), Fault<'s>> {
    Ok(())
}

fn leaf<'s>(lex: &logos::Lexer<'s, Tokens<'s>>, token: Tokens<'s>) -> usize {
    match token {
        Values::Let if lex.slice() == "let" => 3,
        Values::Let => 4,
        Values::Select => 5,
        Values::Truth(true) => 6,
        Values::Truth(false) => 7,
        Values::Number(value) => {
            assert_eq!(value, number(lex.slice()));
            8
        }
        Values::Decimal(text) => {
            assert_eq!(text, lex.slice());
            9
        }
        Values::Name(text) => {
            assert_eq!(text, lex.slice());
            10
        }
        Values::Text(text) => {
            assert_eq!(text.len() + 2, lex.slice().len());
            11
        }
        Values::Pair(Pair(name, value)) => {
            assert_eq!(name.len() + 1 + value.len(), lex.slice().len());
            12
        }
        Values::Sign(sign) => {
            assert_eq!(sign, lex.slice().chars().next());
            13
        }
        Values::Mark if lex.slice().starts_with('#') => 14,
        Values::Mark => 15,
        Values::r#Final => 16,
    }
}
