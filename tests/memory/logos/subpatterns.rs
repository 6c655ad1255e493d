#[logos(subpattern h = r"[0-9a-f]")] #[logos(subpattern p = r"(?&h){2}")] enum E { #[regex(r"#(?&p)")] A }
