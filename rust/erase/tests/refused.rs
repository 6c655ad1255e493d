//! Sources that are refused, and the locations of their errors.

use rattle_erase::{Paths, erase};

/// Sources, the line and the column at which each is refused, and a part of the message.
const REFUSED: [(&str, usize, usize, &str); 37] = [
    ("fn f() {\n    ghost x\n}\n", 2, 5, "unknown form of a ghost item"),
    ("ghost fn f() {}\n", 1, 1, "unknown form of a ghost item"),
    ("ghost a = { b } c\n", 1, 1, "unknown form of a ghost item"),
    ("ghost a = b;\n", 1, 1, "without braces"),
    ("ghost use a\n", 1, 1, "without a semicolon"),
    ("fn f()\n    ensures a ≡ b\n{}\n", 2, 5, "without braces"),
    ("fn f() ensures* a { b } {}\n", 1, 8, "without braces"),
    ("é fn f() requires\n", 1, 1, "character"),
    ("fn f() requires { a { b }\n", 1, 17, "not closed"),
    ("fn f() requires { \" }\n", 1, 19, "string"),
    ("let «data» = 1;\n", 1, 5, "character"),
    ("let x = \"a\n", 1, 9, "string"),
    ("let x = r##\"a\"#\n", 1, 9, "raw string"),
    ("let x = '\\a\n", 1, 9, "quote"),
    ("let x = '+;\n", 1, 9, "quote"),
    ("/* a /* b */\n", 1, 1, "comment"),
    ("fn f() {\n", 1, 8, "not closed"),
    ("fn f() )\n", 1, 8, "closes none"),
    ("fn f( } )\n", 1, 7, "closes none"),
    ("\n#[cfg(test)]\nmod a {}\n", 2, 3, "unknown attribute"),
    ("#[derive_where(Clone)]\nstruct A;\n", 1, 3, "unknown attribute"),
    ("#[test]\nfn f() {}\n", 1, 3, "unknown attribute"),
    ("let x = #a;\n", 1, 9, "no attribute"),
    ("#[derive(Debug, Error)]\nstruct A;\n", 1, 17, "derive"),
    ("#[derive(Clone)]\nenum A {}\n", 2, 1, "derive of `Clone`"),
    ("#[derive(Clone)]\nstruct A<T> {}\n", 2, 1, "derive of `Clone`"),
    ("impl Drop for A {}\n", 1, 1, "`impl` of `Drop`"),
    ("type A = Drop;\n", 1, 10, "`Drop`"),
    ("unsafe fn f() {}\n", 1, 1, "`unsafe`"),
    ("let x = unsafe { y(z) };\n", 1, 9, "`unsafe`"),
    ("final fn f() {}\n", 1, 1, "`final`"),
    ("fn f() { prove!(a); }\n", 1, 10, "macro for proofs"),
    ("pub(in crate::a) fn f() {}\n", 1, 8, "`crate`"),
    ("use crate as a;\n", 1, 5, "`crate`"),
    ("use a::laws::x;\nlet y = x();\n", 2, 9, "law"),
    ("x.collect::<A>(a)\n", 1, 3, "allocator"),
    ("use a::b\n", 1, 1, "item that does not end"),
];

#[test]
fn what_is_not_known_is_refused() {
    for (text, line, column, message) in REFUSED {
        match erase(text, &Paths::default()) {
            Ok(output) => panic!("not refused: {text}: {output}"),
            Err(refusal) => {
                assert_eq!((refusal.line, refusal.column), (line, column), "{text}: {refusal}");
                assert!(refusal.message.contains(message), "{text}: {refusal}");
            }
        }
    }
}
