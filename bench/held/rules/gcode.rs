//! Programs of printers and mills in G-code.

use logos::Logos;

#[derive(Logos, Clone, Copy, Debug, PartialEq)]
#[logos(skip r"[ \t]+")]
pub enum Token {
    #[token("G0", priority = 10)]
    Rapid,
    #[token("G1", priority = 10)]
    Linear,
    #[token("G2", priority = 10)]
    Clockwise,
    #[token("G3", priority = 10)]
    Counterclockwise,
    #[token("G28", priority = 10)]
    Home,
    #[token("G92", priority = 10)]
    SetPosition,
    #[token("M104", priority = 10)]
    SetHeat,
    #[token("M106", priority = 10)]
    FanOn,
    #[token("M107", priority = 10)]
    FanOff,
    #[token("%")]
    Percent,
    #[regex(r"[GMT][0-9]+(\.[0-9])?")]
    Code,
    #[regex(r"N[0-9]+")]
    LineNumber,
    #[regex(r"X-?[0-9]*(\.[0-9]+)?")]
    X,
    #[regex(r"Y-?[0-9]*(\.[0-9]+)?")]
    Y,
    #[regex(r"Z-?[0-9]*(\.[0-9]+)?")]
    Z,
    #[regex(r"E-?[0-9]*(\.[0-9]+)?")]
    E,
    #[regex(r"[IJ]-?[0-9]*(\.[0-9]+)?")]
    Center,
    #[regex(r"F[0-9]+(\.[0-9]+)?")]
    Feed,
    #[regex(r"[SPR][0-9]+(\.[0-9]+)?")]
    Parameter,
    #[regex(r"\*[0-9]+")]
    Checksum,
    #[regex(r"\([^)\n]*\)")]
    Remark,
    #[regex(r";[^\n]*", allow_greedy = true)]
    Comment,
    #[regex(r"\r?\n")]
    Line,
}
