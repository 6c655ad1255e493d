//! Data of paths in SVG, as tools for smaller files write them.

use logos::Logos;

#[derive(Logos, Clone, Copy, Debug, PartialEq)]
#[logos(skip r"[ \t\r\n,]+")]
pub enum Token {
    #[token("m")]
    MoveBy,
    #[token("M")]
    MoveTo,
    #[token("l")]
    LineBy,
    #[token("L")]
    LineTo,
    #[token("h")]
    AcrossBy,
    #[token("H")]
    AcrossTo,
    #[token("v")]
    DownBy,
    #[token("V")]
    DownTo,
    #[token("c")]
    CurveBy,
    #[token("C")]
    CurveTo,
    #[token("s")]
    SmoothBy,
    #[token("S")]
    SmoothTo,
    #[token("q")]
    QuadraticBy,
    #[token("Q")]
    QuadraticTo,
    #[token("t")]
    FurtherBy,
    #[token("T")]
    FurtherTo,
    #[token("a")]
    ArcBy,
    #[token("A")]
    ArcTo,
    #[token("z")]
    CloseBy,
    #[token("Z")]
    CloseTo,
    #[regex(r"[+\-]?[0-9]+")]
    Integer,
    #[regex(r"[+\-]?[0-9]*\.[0-9]+")]
    Decimal,
    #[regex(r"[+\-]?([0-9]+|[0-9]*\.[0-9]+)[eE][+\-]?[0-9]+")]
    Power,
}
