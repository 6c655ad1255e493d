//! Lexers of languages and formats, as a whole.

use crate::{items, texts};
use logos::{Lexer, Logos};

#[test]
fn a_style_sheet() {
    #[derive(Logos, Debug, PartialEq)]
    #[logos(skip r"[ \t\n\f]+")]
    enum Token {
        #[regex(r"-?[a-zA-Z_][a-zA-Z0-9_-]*")]
        Name,
        #[regex(r"[0-9]+(em|px|%)")]
        Length,
        #[regex(r"[0-9]+")]
        Integer,
        #[regex("#[0-9a-fA-F]{3}([0-9a-fA-F]{3})?")]
        Color,
        #[regex("#[a-zA-Z_][a-zA-Z0-9_-]*", priority = 3)]
        Id,
        #[regex("[{}:;.,]")]
        Sign,
    }
    use Token::{Color, Id, Integer, Length, Name, Sign};
    let wanted = [
        (Ok(Id), "#main"),
        (Ok(Sign), "."),
        (Ok(Name), "wide"),
        (Ok(Sign), "{"),
        (Ok(Name), "margin-top"),
        (Ok(Sign), ":"),
        (Ok(Integer), "0"),
        (Ok(Length), "12px"),
        (Ok(Length), "50%"),
        (Ok(Sign), ";"),
        (Ok(Name), "color"),
        (Ok(Sign), ":"),
        (Ok(Color), "#fff"),
        (Ok(Sign), "}"),
    ];
    assert_eq!(
        texts::<Token>("#main.wide {\n margin-top: 0 12px 50%; color:#fff }"),
        wanted
    );
    // `#ffff` is an identifier, since a color has three or six digits.
    assert_eq!(texts::<Token>("#ffff"), [(Ok(Id), "#ffff")]);
    assert_eq!(
        texts::<Token>("12pt"),
        [(Ok(Integer), "12"), (Ok(Name), "pt")]
    );
}

#[test]
fn numbers() {
    #[derive(Logos, Debug, PartialEq)]
    #[logos(skip " ")]
    enum Number {
        #[regex("0b[01](_?[01])*", |lex| i64::from_str_radix(&lex.slice()[2..].replace('_', ""), 2).ok())]
        #[regex("0x[0-9a-f](_?[0-9a-f])*", |lex| i64::from_str_radix(&lex.slice()[2..].replace('_', ""), 16).ok())]
        #[regex("[0-9](_?[0-9])*", |lex| lex.slice().replace('_', "").parse().ok())]
        Integer(i64),
        #[regex(r"[0-9]+\.[0-9]+([eE][+-]?[0-9]+)?", |lex| lex.slice().parse().ok())]
        Float(f64),
        #[token("..")]
        Range,
    }
    use Number::{Float, Integer, Range};
    let wanted = [
        Ok(Integer(5)),
        Ok(Integer(255)),
        Ok(Integer(1000)),
        Ok(Float(2.5)),
        Ok(Float(-0.0 + 1.25e-2)),
        Ok(Integer(1)),
        Ok(Range),
        Ok(Integer(2)),
    ];
    assert_eq!(
        items::<Number>("0b1_01 0xff 1_000 2.5 1.25e-2 1..2"),
        wanted
    );
    assert_eq!(
        texts::<Number>("1__0"),
        [
            (Ok(Integer(1)), "1"),
            (Err(()), "_"),
            (Err(()), "_"),
            (Ok(Integer(0)), "0")
        ]
    );
}

#[test]
fn text_with_values() {
    #[derive(Logos, Debug, PartialEq)]
    enum Json<'s> {
        #[regex(r"[ \t\r\n]+", logos::skip)]
        Blank,
        #[regex("[{}:,]|\\[|\\]")]
        Sign(&'s str),
        #[token("true", |_| true)]
        #[token("false", |_| false)]
        Bool(bool),
        #[token("null")]
        Null,
        #[regex(r"-?(0|[1-9][0-9]*)(\.[0-9]+)?([eE][+-]?[0-9]+)?", |lex| lex.slice().parse::<f64>().unwrap())]
        Number(f64),
        #[regex(r#""([^"\\\x00-\x1F]|\\(["\\bnfrt/]|u[a-fA-F0-9]{4}))*""#, |lex| lex.slice())]
        Text(&'s str),
    }
    use Json::{Bool, Null, Number, Sign, Text};
    let wanted = [
        Ok(Sign("{")),
        Ok(Text(r#""a\"b""#)),
        Ok(Sign(":")),
        Ok(Sign("[")),
        Ok(Bool(true)),
        Ok(Sign(",")),
        Ok(Null),
        Ok(Sign(",")),
        Ok(Number(-120.0)),
        Ok(Sign("]")),
        Ok(Sign("}")),
    ];
    assert_eq!(items::<Json>("{\"a\\\"b\": [true, null,\n-1.2e2]}"), wanted);
    assert_eq!(
        texts::<Json>("01"),
        [(Ok(Number(0.0)), "0"), (Ok(Number(1.0)), "1")]
    );
    assert_eq!(
        texts::<Json>(r#""a\x""#),
        [(Err(()), r#""a\"#), (Err(()), "x"), (Err(()), "\"")]
    );
}

#[test]
fn nested_comments() {
    #[derive(Logos, Debug, PartialEq)]
    #[logos(skip r"\s+")]
    enum Token {
        #[token("(*", comment)]
        Comment,
        #[regex("[a-z]+")]
        Word,
        #[token("*")]
        Star,
    }
    #[derive(Logos, Debug, PartialEq)]
    enum Part {
        #[token("(*")]
        Open,
        #[token("*)")]
        Close,
        #[regex(r"[^(*]+|\(|\*", priority = 1)]
        Text,
    }
    fn comment(lex: &mut Lexer<Token>) -> Option<()> {
        let mut parts = Part::lexer(lex.remainder());
        let mut depth = 1;
        while depth > 0 {
            match parts.next()? {
                Ok(Part::Open) => depth += 1,
                Ok(Part::Close) => depth -= 1,
                _ => {}
            }
        }
        lex.bump(parts.span().end);
        Some(())
    }
    use Token::{Comment, Star, Word};
    let wanted = [
        (Ok(Word), "a"),
        (Ok(Comment), "(* b (* c *) ** *)"),
        (Ok(Star), "*"),
    ];
    assert_eq!(texts::<Token>("a (* b (* c *) ** *) *"), wanted);
    assert_eq!(
        texts::<Token>("(* (* *)"),
        [(Err(()), "(*"), (Ok(Comment), "(* *)")]
    );
}

#[test]
fn text_with_expressions_inside() {
    #[derive(Logos, Debug, PartialEq)]
    enum Template {
        #[regex(r"[^$]+|\$", priority = 1)]
        Text,
        #[token("${")]
        Open,
    }
    #[derive(Logos, Debug, PartialEq)]
    #[logos(skip " +")]
    enum Expression {
        #[regex("[a-z]+")]
        Name,
        #[token("+")]
        Plus,
        #[token("}")]
        Close,
    }
    let (mut found, mut template) = (Vec::new(), Template::lexer("a$b ${ x+y }c${z}"));
    while let Some(item) = template.next() {
        found.push(template.slice());
        if item == Ok(Template::Open) {
            let mut inside = template.morph::<Expression>();
            while inside
                .next()
                .is_some_and(|item| item != Ok(Expression::Close))
            {
                found.push(inside.slice());
            }
            template = inside.morph();
        }
    }
    assert_eq!(found, ["a", "$", "b ", "${", "x", "+", "y", "c", "${", "z"]);
}

#[test]
fn indentation() {
    #[derive(Logos, Debug, PartialEq)]
    #[logos(skip " ")]
    enum Token {
        #[regex("\n *", |lex| lex.slice().len() - 1, priority = 5)]
        Indent(usize),
        #[regex("[a-z]+:?")]
        Word,
    }
    use Token::{Indent, Word};
    let wanted = [
        Ok(Word),
        Ok(Indent(2)),
        Ok(Word),
        Ok(Word),
        Ok(Indent(0)),
        Ok(Word),
    ];
    assert_eq!(items::<Token>("if:\n  a b\nc"), wanted);
}

#[test]
fn a_line_of_a_log() {
    #[derive(Logos, Debug, PartialEq)]
    enum Field<'s> {
        #[regex(r"\d{1,3}(\.\d{1,3}){3}")]
        Address(&'s str),
        #[regex(r"\[[^\]\n]*\]", |lex| &lex.slice()[1..lex.slice().len() - 1])]
        Time(&'s str),
        #[regex("\"[^\"\n]*\"")]
        Request(&'s str),
        #[regex(r"\d+", |lex| lex.slice().parse().ok())]
        Number(u64),
        #[token("-")]
        Nothing,
        #[regex("[ \n]", logos::skip)]
        Blank,
    }
    use Field::{Address, Nothing, Number, Request, Time};
    let wanted = [
        Ok(Address("10.0.0.1")),
        Ok(Nothing),
        Ok(Time("01/Jan 12:00")),
        Ok(Request("\"GET /\"")),
        Ok(Number(200)),
        Ok(Number(1234567)),
    ];
    assert_eq!(
        items::<Field>("10.0.0.1 - [01/Jan 12:00] \"GET /\" 200 1234567\n"),
        wanted
    );
    assert_eq!(
        items::<Field>("10.0.0"),
        [
            Ok(Number(10)),
            Err(()),
            Ok(Number(0)),
            Err(()),
            Ok(Number(0))
        ]
    );
}

#[test]
fn a_calculator() {
    #[derive(Logos, Clone, Copy, Debug, PartialEq)]
    #[logos(skip " +")]
    enum Token {
        #[regex("[0-9]+", |lex| lex.slice().parse().ok())]
        Number(i64),
        #[regex(r"[+*()-]", |lex| lex.slice().as_bytes()[0])]
        Sign(u8),
    }
    use Token::{Number, Sign};
    type Tokens<'s> = std::iter::Peekable<Lexer<'s, Token>>;
    fn atom(tokens: &mut Tokens) -> Option<i64> {
        match tokens.next()?.ok()? {
            Number(value) => Some(value),
            Sign(b'-') => Some(-atom(tokens)?),
            Sign(b'(') => {
                let value = sum(tokens)?;
                (tokens.next()? == Ok(Sign(b')'))).then_some(value)
            }
            Sign(_) => None,
        }
    }
    fn product(tokens: &mut Tokens) -> Option<i64> {
        let mut value = atom(tokens)?;
        while tokens.next_if_eq(&Ok(Sign(b'*'))).is_some() {
            value *= atom(tokens)?;
        }
        Some(value)
    }
    fn sum(tokens: &mut Tokens) -> Option<i64> {
        let mut value = product(tokens)?;
        while tokens.next_if_eq(&Ok(Sign(b'+'))).is_some() {
            value += product(tokens)?;
        }
        Some(value)
    }
    let value = |text| sum(&mut Token::lexer(text).peekable());
    assert_eq!(value("2 * (3 + 4) + -1"), Some(13));
    assert_eq!(value("2 * (3 + 4"), None);
    assert_eq!(value("2 * 99999999999999999999"), None);
}
