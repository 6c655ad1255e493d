//! Each form of the language that the crates use: its input and its output.

use rattle_erase::{Paths, erase};

/// Erases a source that may name the crate `logos_token` and the toolchain's `json`. Returns the
/// output without the line that each file gets at its end.
fn erased(text: &str) -> String {
    let libraries = vec![("logos_token", "crate"), ("json", "std::crates")];
    let paths = Paths { module: "logos_hir", libraries };
    let output = erase(text, &paths).unwrap_or_else(|refusal| panic!("{refusal}: {text}"));
    output.replacen("\nuse std::prelude::*;\n", "", 1)
}

/// Asserts the output for each source.
fn assert_forms(forms: &[(&str, &str)]) {
    for (text, wanted) in forms {
        assert_eq!(erased(text), *wanted, "from: {text}");
    }
}

#[test]
fn rust_stays() {
    let same = "//! About the file.\n\n/// A doc with `ghost` and requires { x }.\npub fn f<'a>(x: &'a str) -> \
                Option<u8> {\n    /* a /* nested */ ensures */ let _ = (b'x', '\\'', \"ghost \\\" x\", \
                r#\"a \"requires\" b\"#, 1.5, 0..2);\n    'run: loop {\n        break 'run;\n    }\n    x.to_string()\n}\n";
    assert_forms(&[(same, same)]);
}

#[test]
fn ghost_items_are_blanked() {
    assert_forms(&[
        ("ghost use Rattle.std.{◌≡◌, ℕ};\nuse a::b;\n", "\nuse a::b;\n"),
        (
            "impl A for B {\n    ghost view = { λ b. \"}\" }; fn f() {}\n}\n",
            "impl A for B {\n                               fn f() {}\n}\n",
        ),
        (
            "trait A {\n    ghost eq: { Self → Type 0 } = { λ _. ⊤ };\n    ghost size: { ℕ };\n}\n",
            "trait A {\n\n\n}\n",
        ),
        ("struct A {\n    a: u8,\n    ghost few: { a ≤ 3 },\n}\n", "struct A {\n    a: u8,\n\n}\n"),
        (
            "struct A { a: u8, ghost few: { a ≤ 3 } by { x } }\n",
            "struct A { a: u8,                               }\n",
        ),
    ]);
}

#[test]
fn clauses_are_blanked() {
    assert_forms(&[
        (
            "fn f(x: u8) -> u8\n    requires { x < 3 }\n    ensures { result ≡ x }\n{\n    x\n}\n",
            "fn f(x: u8) -> u8\n\n\n{\n    x\n}\n",
        ),
        (
            "fn f()\n    ensures ok { a -- a brace } and a \" in a comment\n    }\n{}\n",
            "fn f()\n\n\n{}\n",
        ),
        (
            "fn f() requires few { {x} ≡ \"\\\"}\" } {}\n",
            "fn f()                              {}\n",
        ),
        (
            "trait A {\n    fn f()\n        ensures { x };\n}\n",
            "trait A {\n    fn f()\n                     ;\n}\n",
        ),
    ]);
}

#[test]
fn comments_above_what_goes_go_too() {
    assert_forms(&[
        ("/// Kept.\n\n// Goes.\n// Too.\nghost use A;\n", "/// Kept.\n\n\n\n\n"),
        (
            "struct A {\n    a: u8, // Kept.\n    /// Goes.\n    ghost b: { c },\n}\n",
            "struct A {\n    a: u8, // Kept.\n\n\n}\n",
        ),
        ("//! Kept.\nghost use A;\n", "//! Kept.\n\n"),
        ("a();\r\n/// Goes.\r\nghost use A;\r\nb();\r\n", "a();\r\n\n\nb();\r\n"),
    ]);
}

#[test]
fn models_and_laws_are_blanked() {
    assert_forms(&[
        (
            "use std::marker::Model;\nimpl<'a> Model for A<'a> {\n    ghost Value = { ℕ };\n}\nfn f() {}\n",
            "\n\n\n\nfn f() {}\n",
        ),
        (
            "mod a;\n/// Laws.\npub(crate) mod laws;\npub use laws::{x,\n    y};\n",
            "mod a;\n\n\n\n\n",
        ),
        (
            "use a::laws::{x, y};\nfn f() {\n    x(&a, (b));\n    y();\n    z();\n}\n",
            "\nfn f() {\n\n\n    z();\n}\n",
        ),
    ]);
}

#[test]
fn attributes_of_proofs_are_blanked() {
    assert_forms(&[
        (
            "#![tactic(auto)]\n\n/// Kept.\n#[cycle(a)]\n#[inline(always)]\nfn f() {}\n",
            "\n\n/// Kept.\n\n#[inline(always)]\nfn f() {}\n",
        ),
        (
            "#[tactic(auto, using(crate::proofs::x))]\nfn f() {}\n#[rattlefmt::skip]\nfn g() {}\n",
            "\nfn f() {}\n\nfn g() {}\n",
        ),
    ]);
}

#[test]
fn derives_lose_what_rust_has_not() {
    assert_forms(&[
        ("#[derive(Drop)]\nstruct A;\n", "\nstruct A;\n"),
        ("#[derive(Debug, Drop)]\nstruct A;\n", "#[derive(Debug      )]\nstruct A;\n"),
        ("#[derive(Drop, Clone, Copy)]\nstruct A;\n", "#[derive(      Clone, Copy)]\nstruct A;\n"),
        (
            "#[derive(Clone, Copy, Drop, Eq)]\nstruct A;\n",
            "#[derive(Clone, Copy      , Eq)]\nstruct A;\n",
        ),
        (
            "#[derive(Clone, Debug)]\npub struct A {\n    pub a: Vec<u8>,\n    b: x::Y,\n}\n",
            "#[derive(       Debug)]\npub struct A {\n    pub a: Vec<u8>,\n    b: x::Y,\n}\nimpl Clone for A { fn clone(&self) -> \
             Result<Self, std::alloc::AllocError> { Ok(A { a: self.a.clone()?, b: self.b.clone()?, }) } }\n",
        ),
    ]);
}

#[test]
fn bounds_lose_drop() {
    assert_forms(&[
        ("fn f<T: Drop, U: Read + Drop>() {}\n", "fn f<T      , U: Read       >() {}\n"),
        (
            "fn f<T: Drop + Read>(x: impl Fn(u8) -> u8 + Drop) {}\n",
            "fn f<T:        Read>(x: impl Fn(u8) -> u8       ) {}\n",
        ),
        ("impl<T: Drop> From<T> for A {}\n", "impl<T      > From<T> for A {}\n"),
    ]);
}

#[test]
fn paths_lead_to_modules() {
    assert_forms(&[
        (
            "use crate::a;\npub(crate) fn f() {}\n",
            "use krate::a;\npub(crate) fn f() {}\nuse crate::logos_hir as krate;\n",
        ),
        (
            "use logos_token::a;\nlet x = json::b();\n",
            "use logos_token::a;\nlet x = json::b();\nuse crate::logos_token;\nuse std::crates::json;\n",
        ),
        (
            "pub use logos_token as token;\n",
            "pub use logos_token as token;\nuse crate::logos_token;\n",
        ),
        ("let json = a::json::b(json.c);\n", "let json = a::json::b(json.c);\n"),
    ]);
}

#[test]
fn methods_with_an_allocator_have_names_of_their_own() {
    assert_forms(&[
        ("x.collect(a)?.to_vec(a)?\n", "x.list_in(a)?.vec_in(a)?\n"),
        ("x.to_string(a)?.to_ascii_lowercase(a)?\n", "x.string_in(a)?.ascii_lowercase_in(a)?\n"),
        ("x.collect().to_vec();\n", "x.collect().to_vec();\n"),
        ("(x.cloned()?, x.cloned(), x.clone()?)\n", "(x.clones()?, x.cloned(), x.clone()?)\n"),
    ]);
}

#[test]
fn formatters_are_those_of_rust() {
    assert_forms(&[
        (
            "fn fmt<W: fmt::Write>(&self, f: &mut fmt::Formatter<W>) -> fmt::Result {}\n",
            "fn fmt               (&self, f: &mut fmt::Formatter   ) -> fmt::Result {}\n",
        ),
        (
            "vec![in a; 1, 2]?; format!(in a; \"{x}\")?\n",
            "vec![in a; 1, 2]?; format!(in a; \"{x}\")?\n",
        ),
    ]);
}
