//! Erases the contracts from the programs of the tests and the examples. Writes each program into
//! `OUT_DIR` as a module.

use rattle_erase::{Crates, Module, Paths, build};
use std::io;
use std::process::ExitCode;

/// The name and the source of each program.
const PROGRAMS: [(&str, &str); 10] = [
    ("calls", "../../tests/calls/src"),
    ("evidence", "../../tests/evidence/src"),
    ("edits", "../../tests/edits/src"),
    ("config", "../../examples/config/main.rt.in"),
    ("query", "../../examples/query/main.rt.in"),
    ("log", "../../examples/log/main.rt.in"),
    ("edit", "../../examples/edit/main.rt.in"),
    ("errors", "../../examples/errors/main.rt.in"),
    ("count", "../../examples/count/main.rt.in"),
    ("first", "../../docs/guide/first.rt.in"),
];

/// The function that runs a program from outside its module.
const START: &str = "\
pub fn start() -> std::process::ExitCode {
    std::process::Termination::report(main(HostRuntime))
}
";

fn erase() -> io::Result<()> {
    let crates = Crates::find()?;
    let mut libraries: Vec<_> = crates.names().map(|name| (name, "crate")).collect();
    libraries.push(("indexmap", "std::crates"));
    let module = |(name, source): (&'static str, &str)| Module {
        name,
        source: source.into(),
        paths: Paths {
            module: name,
            libraries: libraries.clone(),
        },
        added: START,
    };
    let modules: Vec<_> = PROGRAMS.into_iter().map(module).collect();
    build(&modules)
}

fn main() -> ExitCode {
    match erase() {
        Ok(()) => ExitCode::SUCCESS,
        Err(error) => {
            println!("cargo::error={error}");
            ExitCode::FAILURE
        }
    }
}
