//! Sentences of receivers for navigation, with the noise of a serial line.

use logos::Logos;

#[derive(Logos, Clone, Copy, Debug, PartialEq)]
#[logos(utf8 = false)]
pub enum Token {
    #[token("$GPGGA")]
    Fix,
    #[token("$GPRMC")]
    Recommended,
    #[token("$GPGSV")]
    InView,
    #[token("$GPGSA")]
    Active,
    #[token("$GPVTG")]
    Velocity,
    #[token("!AIVDM")]
    Vessel,
    #[token(",")]
    Comma,
    #[regex(r"\$[A-Z]{5}", priority = 8)]
    Sentence,
    #[regex(r"-?[0-9]+")]
    Integer,
    #[regex(r"-?[0-9]+\.[0-9]+")]
    Decimal,
    #[regex(r"[NSEWMTKAVBD]", priority = 3)]
    Sign,
    #[regex(r"\*[0-9A-F]{2}")]
    Checksum,
    #[regex(r"[0-9A-Za-w:;<=>?@`]{20,60}", priority = 1)]
    Payload,
    #[regex(r"\r?\n")]
    Line,
    #[regex(r"[A-Za-z]+", priority = 2)]
    Word,
}
