//! Expands the lexers of two files, one of them in another shape.

use logos_build::{Build, Shape};

fn main() {
    let path = logos_build::expand("src/words.rs");
    assert!(path.ends_with("words.rs"));
    Build::new().shape(Shape::Tailcall).expand("src/numbers.rs");
}
