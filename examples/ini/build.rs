//! Expands the lexers in `src/lexers.rs`. All other text of that file stays unchanged.

fn main() {
    logos_build::expand("src/lexers.rs");
}
