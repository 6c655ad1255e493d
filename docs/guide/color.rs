#[derive(Debug, Logos, serde::Serialize)]
#[logos(skip r"[ \n]+", error(Fault, Fault::of))]
#[logos(subpattern h = r"[0-9a-f]", subpattern p = r"(?&h){2}")]
#[logos(type T = Vec<&str>)]
enum Color<'a, T> {
    #[regex(r"#(?&p)", code)]
    Code(&'a T),
    #[token("k", ignore(case), priority = 3)]
    Key,
}
