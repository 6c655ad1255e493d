//! Modules in Verilog.

use logos::Logos;

#[derive(Logos, Clone, Copy, Debug, PartialEq)]
#[logos(skip r"[ \t\r\n]+")]
#[logos(skip(r"//[^\n]*", allow_greedy = true))]
#[logos(skip r"/\*([^*]|\*+[^*/])*\*+/")]
pub enum Token {
    #[token("module")]
    Module,
    #[token("endmodule")]
    EndModule,
    #[token("input")]
    Input,
    #[token("output")]
    Output,
    #[token("wire")]
    Wire,
    #[token("reg")]
    Reg,
    #[token("always")]
    Always,
    #[token("assign")]
    Assign,
    #[token("begin")]
    Begin,
    #[token("end")]
    End,
    #[token("if")]
    If,
    #[token("else")]
    Else,
    #[token("case")]
    Case,
    #[token("endcase")]
    EndCase,
    #[token("default")]
    Default,
    #[token("posedge")]
    PosEdge,
    #[token("negedge")]
    NegEdge,
    #[token("or")]
    Or,
    #[token("parameter")]
    Parameter,
    #[token("localparam")]
    LocalParam,
    #[token("for")]
    For,
    #[token("initial")]
    Initial,
    #[regex(r"[A-Za-z_][A-Za-z0-9_$]*")]
    Name,
    #[regex(r"\$[a-z]+")]
    System,
    #[regex(r"`[a-z]+")]
    Directive,
    #[regex(r"[0-9]*'[bodhBODH][0-9a-fA-FxzXZ_?]+")]
    Sized,
    #[regex(r"[0-9][0-9_]*")]
    Number,
    #[regex(r#""([^"\\\n]|\\[^\n])*""#)]
    Text,
    #[regex(r"<=|>=|==|!=|===|!==|&&|\|\||<<|>>|~\^|\+:")]
    Operator,
    #[regex(r"[+\-*/%&|^~!<>=?]")]
    Sign,
    #[regex(r"[()\[\]{},;:.@#]")]
    Punctuation,
}
