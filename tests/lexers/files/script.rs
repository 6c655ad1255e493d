#!/usr/bin/env rust-script
use logos::Logos;

#[derive(Logos, Debug)]
pub enum Token {
    #[token("#!")]
    Mark,
    #[regex("[a-z/]+")]
    Path,
    #[regex(" +")]
    Blanks,
}
