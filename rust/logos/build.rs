//! Sets the environment variable `LOGOS_VECTORS` for the compilation of this crate if the compiler
//! vectorizes loops. It does so at the optimization levels 2 and 3.

fn main() {
    println!("cargo:rerun-if-changed=build.rs");
    if matches!(std::env::var("OPT_LEVEL").as_deref(), Ok("2" | "3")) {
        println!("cargo:rustc-env=LOGOS_VECTORS=1");
    }
}
