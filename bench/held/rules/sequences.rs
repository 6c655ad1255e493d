//! Sequences of genes and proteins in FASTA: each line is a token.

use logos::Logos;

#[derive(Logos, Clone, Copy, Debug, PartialEq)]
#[logos(skip r"[\r\n]+")]
pub enum Token {
    #[regex(r">[^\r\n]*", allow_greedy = true)]
    Title,
    #[regex(r";[^\r\n]*", allow_greedy = true)]
    Comment,
    #[regex(r"[Nn]+", priority = 4)]
    Unknown,
    #[regex(r"[ACGTUNacgtun]+", priority = 3)]
    Bases,
    #[regex(r"[A-Za-z\-]+\*?", priority = 2)]
    Residues,
    #[regex(r"[ \t]+")]
    Blank,
    #[regex(r"[0-9]+")]
    Number,
}
