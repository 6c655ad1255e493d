#[derive(Logos)]
#[logos(skip r"[ \t\r]+")]
#[logos(skip(r"#[^\n]*", allow_greedy = true))]
#[logos(skip r"/\*([^*]|\*+[^*/])*\*+/")]
#[logos(subpattern name = r"[A-Za-z_.][A-Za-z0-9_.$@]*")]
#[logos(subpattern number = r"0x[0-9a-fA-F]+|[0-9]+")]
enum Asm {
    #[token("\n")]
    LineEnd,
    #[regex("(?&name):", priority = 20)]
    Label,
    #[regex(r"\.[A-Za-z_][A-Za-z0-9_.]*", priority = 12)]
    Directive,
    #[regex("%([er]?[abcd]x|[abcd][lh]|[er]?(si|di|bp|sp)l?|r(8|9|1[0-5])[dwb]?|[xyz]mm[0-9]{1,2}|[cdefgs]s|rip)", priority = 14)]
    Register,
    #[regex(r"\$-?(?&number)", priority = 14)]
    Immediate,
    #[regex(r"\$(?&name)", priority = 13)]
    Address,
    #[regex("(mov|lea|add|sub|xor|and|or|cmp|test|shl|shr|sar|imul|push|pop|inc|dec|neg|not)[bwlq]?", priority = 25)]
    Operation,
    #[regex("call|ret|jmp|nop|leave|cltq|cqto|endbr64|hlt", priority = 26)]
    Flow,
    #[regex("(j|set|cmov)(e|ne|l|le|g|ge|a|ae|b|be|s|ns|z|nz|c|nc|p|np|o|no)", priority = 24)]
    Conditional,
    #[regex("(?&name)", priority = 2)]
    Name,
    #[regex("-?(?&number)", priority = 8)]
    Number,
    #[regex("[0-9]+[fb]", priority = 9)]
    LocalLabel,
    #[regex(r#""([^"\\\n]|\\[^\n])*""#)]
    Text,
    #[regex(r"[-,()\[\]*+@:;=<>|&!~/%^$]")]
    Sign,
}
