//! Calendars in the format iCalendar.

use logos::Logos;

#[derive(Logos, Clone, Copy, Debug, PartialEq)]
#[logos(skip r" +")]
pub enum Token {
    #[token("BEGIN", priority = 20)]
    Begin,
    #[token("END", priority = 20)]
    End,
    #[token("DTSTART", priority = 20)]
    Start,
    #[token("DTEND", priority = 20)]
    Until,
    #[token("SUMMARY", priority = 20)]
    Summary,
    #[token("DESCRIPTION", priority = 20)]
    Description,
    #[token("RRULE", priority = 20)]
    Rule,
    #[token("UID", priority = 20)]
    Uid,
    #[token(":")]
    Colon,
    #[token(";")]
    Semicolon,
    #[token(",")]
    Comma,
    #[token("=")]
    Equals,
    #[regex(r"[0-9]{8}T[0-9]{6}Z?")]
    Time,
    #[regex(r"[0-9]{8}", priority = 10)]
    Date,
    #[regex(r"-?PT?[0-9]+[WDHMS]", priority = 9)]
    Duration,
    #[regex(r"[A-Z][A-Z0-9\-]*", priority = 8)]
    Name,
    #[regex(r"[0-9]+", priority = 8)]
    Number,
    #[regex(r"mailto:[^\r\n;,]+")]
    Mail,
    #[regex(r"\\[nN,;\\]")]
    Escape,
    #[regex(r#""[^"\r\n]*""#)]
    Quoted,
    #[regex(r"\r\n[ \t]")]
    Fold,
    #[regex(r"\r?\n")]
    Line,
    #[regex(r#"[^\x00-\x20:;,="\\]+"#, priority = 1)]
    Word,
}
