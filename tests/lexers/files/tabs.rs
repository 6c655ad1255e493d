//! Tabs before lines.

pub mod inside {
	use logos::Logos;

	#[derive(Debug, Logos)]
	pub enum Token {
		#[token("\t")]
		Tab,
		#[regex("[^\t]+", |lex| {
			let text = lex.slice();
			text.len()
		})]
		Rest(usize),
	}
}

pub use inside::Token;
