#[logos(skip "[ \n]")]
enum Loops {
    #[regex("0[a-zA-Z]*")]
    Zero,
    #[regex("1[b-yB]*x?")]
    One,
    #[regex("2[acegik]*")]
    Two,
    #[regex("3[bdfhjl]+")]
    Three,
    #[regex("4[a-d]*")]
    Four,
    #[regex("5[e-h]*")]
    Five,
    #[regex("6[i-l]*")]
    Six,
    #[regex("7[m-p]*")]
    Seven,
    #[regex("8[q-t]*")]
    Eight,
    #[regex("9[^0-9]*")]
    Nine,
}
