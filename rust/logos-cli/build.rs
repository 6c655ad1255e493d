//! Erases the crates of the programs into `OUT_DIR`, except for the crates that the package
//! `logos-codegen` contains. Sets the environment variable `LOGOS_COMMIT` of the compiler to the
//! commit of the clone. The variable is empty if there is no clone, or if a file of the clone has
//! changed.

use rattle_erase::{Crates, LIBRARY, build};
use std::io;
use std::path::Path;
use std::process::{Command, ExitCode};

/// A public function that is added to the module of the program `logos`. The function calls
/// `run_logos`, which is private.
const RUN_LOGOS: &str = "\
/// Runs the command of `logos` that the arguments name. Returns the exit status.
pub fn run_logos_program(rt: &HostRuntime, arguments: Result<Vec<String>, Failure<'static>>) -> u8 {
    run_logos(rt, arguments)
}
";

/// A re-export that is added to the modules of `logos_cli` and `logos_show`, because the function
/// `run` is private in these modules.
const RUN_COMMAND: &str = "pub(crate) use self::program::run as run_command;\n";

fn erase() -> io::Result<()> {
    let crates = Crates::find()?;
    let below = crates.closure(&LIBRARY);
    let mut names = crates.closure(&["logos_program"]);
    names.retain(|name| !below.contains(name));
    let mut modules: Vec<_> = names.into_iter().map(|name| crates.module(name)).collect();
    for module in &mut modules {
        match module.name {
            "logos_program" => module.added = RUN_LOGOS,
            "logos_cli" | "logos_show" => module.added = RUN_COMMAND,
            _ => (),
        }
    }
    build(&modules)
}

/// Runs git with the arguments `words` in the clone. Returns the output, or `None` if git fails.
fn git(words: &[&str]) -> Option<String> {
    let output = Command::new("git")
        .args(["-C", "../.."])
        .args(words)
        .output()
        .ok()?;
    let text = String::from_utf8_lossy(&output.stdout);
    output.status.success().then(|| text.trim().to_string())
}

/// Returns the commit of the clone that contains this package. Returns `None` if there is no clone,
/// or if a file of the clone has changed.
fn commit() -> Option<String> {
    if !Path::new("../../.git").exists() || !Path::new("../../crates.txt").exists() {
        return None;
    }
    let log = git(&[
        "rev-parse",
        "--path-format=absolute",
        "--git-path",
        "logs/HEAD",
    ])?;
    if Path::new(&log).exists() {
        println!("cargo::rerun-if-changed={log}");
    }
    // Cargo leaves a file of its own in a checkout.
    let changes = git(&["status", "--porcelain", "--", ".", ":!.cargo-ok"])?;
    if changes.is_empty() {
        git(&["rev-parse", "HEAD"])
    } else {
        None
    }
}

fn main() -> ExitCode {
    println!(
        "cargo::rustc-env=LOGOS_COMMIT={}",
        commit().unwrap_or_default()
    );
    match erase() {
        Ok(()) => ExitCode::SUCCESS,
        Err(error) => {
            println!("cargo::error={error}");
            ExitCode::FAILURE
        }
    }
}
