#[logos(utf8 = false)]
enum T { #[regex(b"\xFF+")] A }
