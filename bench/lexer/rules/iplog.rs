#[derive(Logos)]
#[logos(utf8 = false)]
#[logos(skip b"[ \t]+")]
#[logos(subpattern octet = b"25[0-5]|2[0-4][0-9]|1[0-9][0-9]|[1-9]?[0-9]")]
#[logos(subpattern address = b"(?&octet)(\\.(?&octet)){3}")]
#[logos(subpattern clock = b"[0-2][0-9]:[0-5][0-9]:[0-5][0-9]")]
#[logos(subpattern word = b"[A-Za-z_][A-Za-z0-9_.-]*")]
enum Iplog {
    #[regex(b"\r?\n")]
    LineEnd,
    #[regex(b"(Jan|Feb|Mar|Apr|May|Jun|Jul|Aug|Sep|Oct|Nov|Dec) [ 0-3][0-9] (?&clock)", priority = 40)]
    #[regex(b"[0-9]{4}-[01][0-9]-[0-3][0-9][T ](?&clock)([.,][0-9]{1,9})?(Z|[+-][0-9]{2}:?[0-9]{2})?", priority = 41)]
    Time,
    #[regex(b"(?&address)", priority = 30)]
    Address,
    #[regex(b"(?&address):[0-9]{1,5}", priority = 31)]
    AddressAndPort,
    #[regex(b"(?&address)/[0-9]{1,2}", priority = 32)]
    Net,
    #[regex(b"[0-9a-f]{2}(:[0-9a-f]{2}){5}", priority = 33)]
    Card,
    #[regex(b"TRACE|DEBUG|INFO|NOTICE|WARN(ING)?|ERR(OR)?|CRIT(ICAL)?|FATAL", priority = 29)]
    Level,
    #[regex(b"(?&word)=", priority = 20)]
    Key,
    #[regex(b"(?&word)", priority = 4)]
    Word,
    #[regex(b"(?&word)\\[[0-9]+\\]:", priority = 22)]
    Process,
    #[regex(b"[0-9]+", priority = 10)]
    Number,
    #[regex(b"[0-9]+(\\.[0-9]+)?([num]?s|[kMG]?B|%)", priority = 12)]
    Amount,
    #[regex(b"0x[0-9a-fA-F]+", priority = 13)]
    Hex,
    #[regex(b"/[^ \t\r\n\"'?]*", priority = 8)]
    Path,
    #[regex(b"\"([^\"\\\\\n]|\\\\[^\n])*\"")]
    Text,
    #[regex(b"[\\[\\](){}<>,;:=!?#|+*&@%.-]")]
    Sign,
    #[regex(b"[\\x80-\\xff]+")]
    High,
}
