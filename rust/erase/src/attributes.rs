//! `attribute` applies the rules for attributes: it blanks attributes that only Rattle has, and
//! names that Rust does not have or cannot derive. Called by `rules`.

use crate::Refusal;
use crate::rules::Step;
use crate::source::Source;

/// Erases the attribute whose `#` is token number `n`, and returns the number of the attribute's
/// last token. Appends to `added` the `impl` that replaces a derive of `Clone`. Returns a refusal
/// if the attribute is unknown.
pub(crate) fn attribute(source: &mut Source<'_>, n: usize, added: &mut String) -> Step {
    let open = if source.at(n + 1) == "!" { n + 2 } else { n + 1 };
    if source.at(open) != "[" {
        return source.refusal(n, "a `#` that begins no attribute");
    }
    let close = source.closing(open);
    match source.at(open + 1) {
        "derive" if source.at(open + 2) == "(" => derive(source, n, added)?,
        // Only for proofs, and for the layout of sources.
        "tactic" | "cycle" | "rattlefmt" => source.blank(n, close),
        // Equal in Rust.
        "allow" | "cold" | "expect" | "inline" | "must_use" | "repr" | "rustfmt" => {}
        _ => return source.refusal(open + 1, "an unknown attribute"),
    }
    Ok(close)
}

/// Erases names of the derive whose `#` is token number `n`, and the whole derive if no name
/// remains. Returns a refusal if a name is unknown.
///
/// `Drop` is removed. `Clone` without `Copy` is also removed, because cloning can fail in Rattle
/// and Rust cannot derive this form of `Clone`. An `impl` is appended to `added` instead.
fn derive(source: &mut Source<'_>, n: usize, added: &mut String) -> Result<(), Refusal> {
    let close = source.closing(n + 3);
    let names = (n + 4..close).step_by(2);
    let is_copy = names.clone().any(|name| source.at(name) == "Copy");
    let mut kept = 0;
    for name in names {
        match source.at(name) {
            "Clone" if !is_copy => *added += &copy_of(source, close + 2)?,
            "Drop" => {}
            "Clone" | "Copy" | "Debug" | "Default" | "Eq" | "Hash" | "Ord" | "PartialEq"
            | "PartialOrd" => {
                kept += 1;
                continue;
            }
            _ => return source.refusal(name, "an unknown name in a derive"),
        }
        // With the comma before it, or otherwise the one after it.
        let from = if kept > 0 { name - 1 } else { name };
        source.blank(from, if kept == 0 && source.at(name + 1) == "," { name + 1 } else { name });
    }
    if kept == 0 {
        source.blank(n, close + 1);
    }
    Ok(())
}

/// Returns an `impl` of `Clone` that copies each field of the struct that begins at token number
/// `n`. Returns a refusal if the item is not a struct with named fields and without parameters.
fn copy_of(source: &Source<'_>, n: usize) -> Result<String, Refusal> {
    let word = source.find(n, &["struct", "enum", "fn", ";", "{"])?;
    let (name, open) = (source.at(word + 1), word + 2);
    if source.at(word) != "struct" || source.at(open) != "{" {
        return source.refusal(n, "a derive of `Clone` on no plain struct with named fields");
    }
    let mut fields = String::new();
    for field in open + 1..source.closing(open) {
        if source.at(field + 1) == ":" && ["{", ",", "pub", ")"].contains(&source.before(field)) {
            fields += &format!("{0}: self.{0}.clone()?, ", source.at(field));
        }
    }
    Ok(format!(
        "impl Clone for {name} {{ fn clone(&self) -> Result<Self, std::alloc::AllocError> {{ \
         Ok({name} {{ {fields}}}) }} }}\n"
    ))
}
