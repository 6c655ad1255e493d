//! Enums inside of functions, methods, modules and constants, one of them beside others.

#![allow(dead_code)]

use logos::Logos;

/// Returns the sum of the numbers in a text.
fn sum(text: &str) -> u64 {
    #[derive(Logos)]
    #[logos(skip "[^0-9]+")]
    enum Number {
        #[regex("[0-9]+", |lex| lex.slice().parse::<u64>().ok())]
        Is(u64),
    }

    Number::lexer(text).map(|item| item.map_or(0, |Number::Is(number)| number)).sum()
}

struct Counter {
    words: usize,
    others: usize,
}

impl Counter {
    fn read(&mut self, text: &str) {
        #[derive(Logos, PartialEq)]
        enum Token {
            #[regex(r"\w+")]
            Word,
            #[regex(r"\W")]
            Other,
        }

        fn is_word(item: &Result<Token, ()>) -> bool {
            *item == Ok(Token::Word)
        }

        for item in Token::lexer(text) {
            if is_word(&item) { self.words += 1 } else { self.others += 1 }
        }
    }
}

mod a {
    pub mod b {
        #[derive(::logos::Logos, Debug, PartialEq)]
        pub enum Token {
            #[token("a", super::keep)]
            A(char),
            #[token("b", |lex| crate::shout(lex.slice()))]
            B(String),
        }
    }

    fn keep<'s>(_: &mut logos::Lexer<'s, b::Token>) -> char {
        'k'
    }
}

fn shout(text: &str) -> String {
    text.to_uppercase() + "!"
}

const COUNT: fn(&str) -> usize = {
    #[derive(Logos)]
    enum Vowel {
        #[regex("[aeiou]")]
        One,
    }

    |text| Vowel::lexer(text).filter(|item| matches!(item, Ok(Vowel::One))).count()
};

fn main() {
    println!("{}", sum("1 and 20, 300; 99999999999999999999"));
    let mut counter = Counter { words: 0, others: 0 };
    counter.read("über two, three");
    println!("{} {}", counter.words, counter.others);
    println!("{:?}", a::b::Token::lexer("ab").collect::<Result<Vec<_>, _>>());
    println!("{}", COUNT("education"));
}
