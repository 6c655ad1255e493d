//! Removes the contracts from the crates of the library, and writes the results to `OUT_DIR` as
//! modules, which `src/lib.rs` includes.

use rattle_erase::{Crates, LIBRARY, build};
use std::io;
use std::process::ExitCode;

fn erase() -> io::Result<()> {
    let crates = Crates::find()?;
    let names = crates.closure(&LIBRARY).into_iter();
    let modules: Vec<_> = names.map(|name| crates.module(name)).collect();
    build(&modules)
}

fn main() -> ExitCode {
    match erase() {
        Ok(()) => ExitCode::SUCCESS,
        Err(error) => {
            println!("cargo::error={error}");
            ExitCode::FAILURE
        }
    }
}
