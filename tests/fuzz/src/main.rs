//! Fuzzes the library: sources to `generate`, and inputs to its lexers, compared with a slow
//! definition of maximal munch.
//!
//!   fuzz run [--seconds N] [--seed N] [--corpus FILE] [--seeds FOLDER].. [--findings FOLDER]
//!   fuzz small FILE --bytes N [--corpus FILE] [--seeds FOLDER]..
//!   fuzz replay FILE..
//!
//! `run` changes the cases of the corpus and of the seeds for some time, adds what shows something
//! new to the file of the corpus, and writes findings to a folder. `small` writes those cases of a
//! corpus to a file that show most, smallest first, up to a number of bytes. `replay` runs cases.
//! The last line of `run` and `replay` is `N passed, M failed`.
//!
//! A source goes to `generate`. If it is accepted, the input goes to `Lexer` and to the scan by
//! chunks, and both have to find the items of maximal munch by the definition, which knows neither
//! automaton nor graph nor code. The trees of the leaves are the library's, so how patterns are
//! read is not compared. Compared are also `NotUtf8`, the number of states that an attempt enters,
//! that an accepted source is not ambiguous on a span of the input, and the faults `EmptyMatch` and
//! `NoUniversalStart`. A panic, an overflow or more than five processor seconds for one case is a
//! finding, too. A source that is refused for other reasons is only run, with the spans of its
//! faults. Not compared are the sets of `Disambiguation`, the Rust text, and inputs for which the
//! definition would take more than 2,000,000 steps.
//!
//! With one seed, on one build, the order of cases is the same. How many are run depends on the
//! time. `LOGOS_MEMORY` bounds the memory of the library: 256 MiB if it is not set. The rows of a
//! corpus have no wanted answers, since the definition computes them.

mod campaign;
mod check;
mod coverage;
mod grammar;
mod munch;
mod mutation;
mod random;
mod rows;
mod world;

use campaign::{Campaign, Counts, run};
use check::Case;
use coverage::Seen;
use random::Random;
use std::io;
use std::path::{Path, PathBuf};
use std::process::ExitCode;
use std::time::Duration;

/// The memory that the library may use unless `LOGOS_MEMORY` names another budget.
const BUDGET: usize = 256 << 20;

/// What the arguments say.
#[derive(Default)]
struct Arguments {
    seconds: u64,
    seed: u64,
    bytes: usize,
    corpus: Option<PathBuf>,
    seeds: Vec<PathBuf>,
    findings: PathBuf,
    files: Vec<PathBuf>,
}

fn read_arguments(words: &[String]) -> Option<Arguments> {
    let mut arguments = Arguments {
        seconds: 60,
        findings: "findings".into(),
        ..Arguments::default()
    };
    let mut words = words.iter();
    while let Some(word) = words.next() {
        match word.as_str() {
            "--seconds" => arguments.seconds = words.next()?.parse().ok()?,
            "--seed" => arguments.seed = words.next()?.parse().ok()?,
            "--bytes" => arguments.bytes = words.next()?.parse().ok()?,
            "--corpus" => arguments.corpus = Some(words.next()?.into()),
            "--seeds" => arguments.seeds.push(words.next()?.into()),
            "--findings" => arguments.findings = words.next()?.into(),
            file => arguments.files.push(file.into()),
        }
    }
    Some(arguments)
}

/// Returns the cases of the corpus, and those of the seeds.
fn first_cases(arguments: &Arguments) -> io::Result<Vec<Case>> {
    let mut cases = match &arguments.corpus {
        Some(path) if path.exists() => rows::read(path)?,
        _ => Vec::new(),
    };
    for folder in &arguments.seeds {
        rows::add_seeds(folder, &mut cases)?;
    }
    cases.push(Case {
        source: "enum E { #[regex(\"a+\")] A }".to_string(),
        input: b"aab".to_vec(),
    });
    Ok(cases)
}

fn new_campaign(seed: u64, folder: &Path) -> Campaign<'_> {
    Campaign {
        random: Random::new(seed),
        seen: Seen::new(),
        corpus: Vec::new(),
        counts: Counts::default(),
        folder,
    }
}

fn fuzz(arguments: &Arguments) -> io::Result<bool> {
    let mut campaign = new_campaign(arguments.seed, &arguments.findings);
    for case in first_cases(arguments)? {
        campaign.take(case)?;
    }
    println!(
        "{} cases to begin with, {} kept",
        campaign.counts.cases,
        campaign.corpus.len()
    );
    campaign.fuzz(Duration::from_secs(arguments.seconds))?;
    if let Some(path) = &arguments.corpus {
        std::fs::write(path, rows::written(&campaign.corpus))?;
    }
    let (cases, findings) = (campaign.counts.cases, campaign.counts.findings.len());
    println!(
        "{} accepted, {} compared with the definition",
        campaign.counts.accepted, campaign.counts.compared
    );
    println!("{} passed, {findings} failed", cases - findings);
    Ok(findings == 0)
}

/// Writes those cases of a corpus that show something that no smaller one shows.
fn make_small(arguments: &Arguments) -> io::Result<bool> {
    let mut cases = first_cases(arguments)?;
    cases.sort_by_key(|case| (case.source.len() + case.input.len(), case.source.clone()));
    let mut campaign = new_campaign(0, &arguments.findings);
    for case in cases {
        campaign.take(case)?;
    }
    let (mut length, mut kept) = (0, Vec::new());
    for case in campaign.corpus {
        length +=
            rows::escaped(case.source.as_bytes()).len() + rows::escaped(&case.input).len() + 18;
        if length > arguments.bytes {
            break;
        }
        kept.push(case);
    }
    println!("{} cases", kept.len());
    let path = arguments
        .files
        .first()
        .ok_or_else(|| io::Error::other("no file"))?;
    std::fs::write(path, rows::written(&kept))?;
    Ok(true)
}

fn replay(arguments: &Arguments) -> io::Result<bool> {
    let (mut passed, mut failed) = (0, 0);
    for path in &arguments.files {
        for case in rows::read(path)? {
            match run(&case) {
                Ok(_) => passed += 1,
                Err(wrong) => {
                    failed += 1;
                    println!("{}: {}", wrong.kind, wrong.text);
                    println!("  source: {}", rows::escaped(case.source.as_bytes()));
                    println!("  input: {}", rows::escaped(&case.input));
                }
            }
        }
    }
    println!("{passed} passed, {failed} failed");
    Ok(failed == 0)
}

fn main() -> ExitCode {
    let words: Vec<String> = std::env::args().skip(1).collect();
    let Some(arguments) = words.get(1..).and_then(read_arguments) else {
        eprintln!("usage: fuzz run|small|replay ..");
        return ExitCode::from(2);
    };
    match std::env::var_os("LOGOS_MEMORY") {
        Some(_) => drop(rattle_std::alloc::set_budget_of_program()),
        None => rattle_std::alloc::set_budget(Some(BUDGET)),
    }
    let ended = match words[0].as_str() {
        "run" => fuzz(&arguments),
        "small" => make_small(&arguments),
        "replay" => replay(&arguments),
        _ => Err(io::Error::other("the first word is run, small or replay")),
    };
    match ended {
        Ok(true) => ExitCode::SUCCESS,
        Ok(false) => ExitCode::FAILURE,
        Err(error) => {
            eprintln!("fuzz: {error}");
            ExitCode::from(3)
        }
    }
}
