//! Names outside of ASCII.

use logos::Logos;

#[derive(Logos, Debug, Clone)]
pub enum Größe {
    #[regex(r"\p{Greek}+")]
    Ελληνικά,
    #[token("ß", ignore(case))]
    Straße,
    #[regex(r"[\u{4E00}-\u{9FFF}]+")]
    漢字,
    #[regex(r"\p{White_Space}+")]
    Leer,
}
