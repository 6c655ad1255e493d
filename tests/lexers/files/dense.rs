use logos::Logos;
/* all on one line */ #[derive(Logos,Debug)]#[logos(skip " ")]pub enum Token{#[token("a")]A,#[regex("b+", |lex|lex.slice().len())]B(usize),/*c*/#[token("c")]C}pub fn f()->u8{1}#[derive(Debug,Logos)]pub enum Other{#[token("o")]O}
