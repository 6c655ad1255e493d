#[logos(utf8 = false)]
enum Packet {
    #[regex(b"\x02[^\x03]*\x03")]
    Frame,
    #[token(b"\x06")]
    Acknowledge,
    #[regex(b"[\x80-\xFF]+")]
    Noise,
}
