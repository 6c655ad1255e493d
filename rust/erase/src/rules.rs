//! `apply` applies the rules that turn the code of a Rattle source into Rust. Each rule examines a
//! token and the tokens around the token. Called by `erase`.

use crate::attributes::attribute;
use crate::source::Source;
use crate::{Paths, Refusal};

/// The number of the last token that a rule has handled, or the refusal of a form.
pub(crate) type Step = Result<usize, Refusal>;

/// The names of the methods that take an allocator in Rattle but not in Rust, each with the name of
/// equal width that replaces it.
const WITH_ALLOCATOR: [(&str, &str); 4] = [
    ("collect", "list_in"),
    ("to_vec", "vec_in"),
    ("to_string", "string_in"),
    ("to_ascii_lowercase", "ascii_lowercase_in"),
];

/// The names that rules collect from a file.
#[derive(Default)]
struct Names<'t> {
    /// The `use` declarations that the paths of the file need, without duplicates.
    uses: String,
    /// The names that `use` declarations of laws import.
    laws: Vec<&'t str>,
}

impl Names<'_> {
    fn add(&mut self, declaration: &str) {
        if !self.uses.contains(declaration) {
            self.uses += declaration;
        }
    }
}

/// Applies all rules to the code of a source. Returns the lines to add after the last line of the
/// source.
pub(crate) fn apply(source: &mut Source<'_>, paths: &Paths<'_>) -> Result<String, Refusal> {
    let (mut names, mut copies) = (Names::default(), String::new());
    let mut n = 0;
    while n < source.len() {
        n = 1 + match source.at(n) {
            "#" => attribute(source, n, &mut copies)?,
            "use" | "mod" => declaration(source, n, &mut names)?,
            "impl" => implementation(source, n)?,
            "crate" => own_path(source, n, paths, &mut names)?,
            word if word.as_bytes()[0].is_ascii_alphabetic() => {
                note_library(source, n, paths, &mut names);
                keyword(source, n, word, &names)?
            }
            _ => n,
        };
    }
    Ok(format!("\nuse std::prelude::*;\n{}{copies}", names.uses))
}

/// Blanks the `use` or `mod` at token number `n` if it declares laws or a name that only models
/// need. Adds the names of the laws to `names`.
fn declaration<'t>(source: &mut Source<'t>, n: usize, names: &mut Names<'t>) -> Step {
    let end = source.find(n, &[";"])?;
    let law = (n..end).find(|&k| source.at(k) == "laws");
    let is_law = law.is_some() && (source.at(n) == "use" || source.at(n + 2) == ";");
    if !is_law && !source.matches(n + 1, &["std", "::", "marker", "::", "Model", ";"]) {
        return Ok(n);
    }
    names.laws.extend((law.unwrap_or(end)..end).map(|k| source.at(k)));
    source.blank_item(n, end);
    Ok(end)
}

/// Blanks the `impl` at token number `n` if it is an `impl` of `Model`. Returns a refusal if it is
/// an `impl` of `Drop`.
fn implementation(source: &mut Source<'_>, n: usize) -> Step {
    let open = source.find(n, &["{", ";"])?;
    let trait_end = (n..open).find(|&k| source.at(k) == "for").map_or("", |k| source.before(k));
    match trait_end {
        "Model" => source.blank_item(n, source.closing(open)),
        "Drop" => return source.refusal(n, "an `impl` of `Drop`"),
        _ => return Ok(n),
    }
    Ok(source.closing(open))
}

/// Replaces the `crate` at token number `n` with `krate` if it begins a path, and adds to `names` a
/// declaration that makes `krate` a name of the module that contains the crate. Leaves `(crate)`
/// unchanged, and returns a refusal for any other `crate`.
fn own_path(source: &mut Source<'_>, n: usize, paths: &Paths<'_>, names: &mut Names<'_>) -> Step {
    match (source.before(n), source.at(n + 1)) {
        (before, "::") if before != "in" && before != "$" => source.rename(n, "krate"),
        ("(", ")") => return Ok(n),
        _ => return source.refusal(n, "a `crate` that begins no path of an item"),
    }
    names.add(&format!("use crate::{} as krate;\n", paths.module));
    Ok(n)
}

/// Adds the declaration of a library to `names` if a path that begins with the library begins at
/// token number `n`.
fn note_library(source: &Source<'_>, n: usize, paths: &Paths<'_>, names: &mut Names<'_>) {
    let (before, after) = (source.before(n), source.at(n + 1));
    let is_path = after == "::" || before == "use" && [";", "as"].contains(&after);
    if !is_path || before == "::" || before == "." {
        return;
    }
    if let Some((name, module)) = paths.libraries.iter().find(|(name, _)| *name == source.at(n)) {
        names.add(&format!("use {module}::{name};\n"));
    }
}

/// Applies the rule for `word`, the text of token number `n`, if there is one. The rule blanks a
/// bound `Drop`, a parameter of formatting or a call of a law, renames a method, or refuses a form
/// that must not occur.
fn keyword(source: &mut Source<'_>, n: usize, word: &str, names: &Names<'_>) -> Step {
    let after = source.at(n + 1);
    match word {
        "Drop" => return bound(source, n),
        "unsafe" => return source.refusal(n, "an `unsafe`"),
        "final" if after == "fn" => return source.refusal(n, "a `final` function"),
        "fmt" if source.matches(n + 1, &["<", "W", ":", "fmt", "::", "Write", ">"]) => {
            source.blank(n + 1, n + 7);
        }
        "Formatter" if source.matches(n + 1, &["<", "W", ">"]) => source.blank(n + 1, n + 3),
        "cloned" if source.matches(n + 1, &["(", ")", "?"]) => source.rename(n, "clones"),
        _ if source.before(n) == "." => return method(source, n, word),
        "prove" | "prove_eq" | "prove_ne" if after == "!" => {
            return source.refusal(n, "a macro for proofs");
        }
        _ if after == "(" && names.laws.contains(&word) => return law(source, n),
        _ => {}
    }
    Ok(n)
}

/// Blanks the bound `Drop` at token number `n`, because each type of Rust may be dropped.
fn bound(source: &mut Source<'_>, n: usize) -> Step {
    match (source.before(n), source.at(n + 1)) {
        ("+", _) => source.blank(n - 1, n),
        (":", "+") => source.blank(n, n + 1),
        (":", "," | ">") => source.blank(n - 1, n),
        _ => return source.refusal(n, "a `Drop` that is no bound and no name in a derive"),
    }
    Ok(n)
}

/// Renames the method at token number `n` if the method is one of [`WITH_ALLOCATOR`] and has
/// arguments.
fn method(source: &mut Source<'_>, n: usize, word: &str) -> Step {
    if let Some(&(_, name)) = WITH_ALLOCATOR.iter().find(|(name, _)| *name == word) {
        match (source.at(n + 1), source.at(n + 2)) {
            ("(", ")") => {}
            ("(", _) => source.rename(n, name),
            _ => return source.refusal(n, "a method with an allocator in an unknown form"),
        }
    }
    Ok(n)
}

/// Blanks the call of a law at token number `n`. The call must be a statement.
fn law(source: &mut Source<'_>, n: usize) -> Step {
    let end = source.closing(n + 1) + 1;
    if !["{", "}", ";"].contains(&source.before(n)) || source.at(end) != ";" {
        return source.refusal(n, "a call of a law that is no statement");
    }
    source.blank(n, end);
    Ok(end)
}
