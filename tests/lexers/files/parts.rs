//! Subpatterns, priorities and flags.

use logos::Logos;

#[derive(Logos, Debug)]
#[logos(
    subpattern digits = r"[0-9](_?[0-9])*",
    subpattern exponent = r"[eE][+-]?(?&digits)"
)]
#[logos(subpattern letter = r"[\p{L}_]")]
#[logos(skip(r"[ \n]"))]
pub enum Token {
    #[regex(r"(?&digits)")]
    Integer,
    #[regex(r"(?&digits)(\.(?&digits))?(?&exponent)?", priority = 1)]
    Decimal,
    #[token("select", ignore(case), priority = 100)]
    Select,
    #[regex(r"(?&letter)((?&letter)|[0-9])*")]
    Name,
    #[regex(r#""([^"\\]|\\.)*""#)]
    #[regex("'[^']*'")]
    Text,
}
