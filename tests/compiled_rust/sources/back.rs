enum Back {
    #[regex("a*b")]
    Far,
    #[regex("x(yz)*")]
    Pairs,
    #[regex("fe{0,2}")]
    Counted,
    #[regex("/\\*([^*]|\\*+[^*/])*\\*+/")]
    Comment,
    #[regex("\"([^\"\\\\\n]|\\\\.)*\"")]
    Quoted,
}
