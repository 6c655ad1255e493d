#[logos(type T = Vec<T>)] enum E<T> { #[regex("x")] A(), #[regex("a*")] B(T) }
