//! The loop of the fuzzer: it changes cases, runs them, keeps those that show something new, and
//! makes findings small.

use crate::check::{Case, Verdict, Wrong, check};
use crate::coverage::{self, Seen};
use crate::mutation::changed;
use crate::random::Random;
use crate::rows;
use std::collections::BTreeMap;
use std::fs;
use std::io;
use std::panic::{AssertUnwindSafe, catch_unwind};
use std::path::Path;
use std::time::{Duration, Instant};

/// The processor time that one case may take, with the definition. A slower one is a finding of the
/// kind `slow`.
const LONGEST: Duration = Duration::from_secs(5);

/// The time that is taken to make a finding small.
const SHRINKING: Duration = Duration::from_secs(20);

/// How many cases were run, and how they ended.
#[derive(Default)]
pub struct Counts {
    pub cases: usize,
    pub accepted: usize,
    pub compared: usize,
    pub findings: BTreeMap<String, Case>,
}

/// A run of the fuzzer.
pub struct Campaign<'f> {
    pub random: Random,
    pub seen: Seen,
    pub corpus: Vec<Case>,
    pub counts: Counts,
    /// The folder of the findings.
    pub folder: &'f Path,
}

/// Runs a case. A panic is wrong, too, and so is a long time.
pub fn run(case: &Case) -> Result<Verdict, Wrong> {
    let begun = processor_time();
    coverage::reset();
    let verdict = catch_unwind(AssertUnwindSafe(|| check(case))).unwrap_or_else(|panic| {
        let text = panic.downcast_ref::<String>().cloned();
        let text = text.or_else(|| panic.downcast_ref::<&str>().map(|it| it.to_string()));
        Err(Wrong {
            kind: "panic".to_string(),
            text: text.unwrap_or_default(),
        })
    });
    coverage::hold();
    let time = processor_time().saturating_sub(begun);
    match verdict {
        Ok(_) if time > LONGEST => Err(Wrong {
            kind: "slow".to_string(),
            text: format!("{} ms", time.as_millis()),
        }),
        other => other,
    }
}

/// Returns the processor time of this process, or 0 where the system does not say.
fn processor_time() -> Duration {
    let text = fs::read_to_string("/proc/self/schedstat").unwrap_or_default();
    let nanoseconds = text.split(' ').next().and_then(|it| it.parse().ok());
    Duration::from_nanos(nanoseconds.unwrap_or_default())
}

impl Campaign<'_> {
    /// Runs a case, and keeps it if it shows something new.
    ///
    /// # Errors
    ///
    /// Returns an error if a finding cannot be written.
    pub fn take(&mut self, case: Case) -> io::Result<()> {
        self.counts.cases += 1;
        match run(&case) {
            Ok(verdict) => {
                self.counts.accepted += usize::from(verdict.is_accepted);
                self.counts.compared += usize::from(verdict.is_compared);
                if self.seen.take() + self.seen.take_facts(&verdict.facts) > 0 {
                    self.corpus.push(case);
                }
                Ok(())
            }
            Err(wrong) => self.keep(case, &wrong),
        }
    }

    /// Makes a finding small and writes it, unless there is one of its kind.
    fn keep(&mut self, case: Case, wrong: &Wrong) -> io::Result<()> {
        let kind = match wrong.kind.as_str() {
            "panic" => format!("panic-{}", sum(&wrong.text)),
            other => other.to_string(),
        };
        if self.counts.findings.contains_key(&kind) {
            return Ok(());
        }
        let small = shrunk(case, &wrong.kind);
        let text = run(&small)
            .err()
            .map_or_else(|| wrong.text.clone(), |wrong| wrong.text);
        println!("finding {kind}: {text}");
        println!("  source: {}", rows::escaped(small.source.as_bytes()));
        println!("  input: {}", rows::escaped(&small.input));
        fs::create_dir_all(self.folder)?;
        fs::write(
            self.folder.join(format!("{kind}.rows")),
            rows::written(&[small.clone()]),
        )?;
        self.counts.findings.insert(kind, small);
        Ok(())
    }

    /// Changes cases for some time, with a line each ten seconds.
    ///
    /// # Errors
    ///
    /// Returns an error if a finding cannot be written.
    pub fn fuzz(&mut self, time: Duration) -> io::Result<()> {
        let begun = Instant::now();
        let mut line = 1;
        while begun.elapsed() < time {
            let case = self.chosen();
            let other = self.chosen();
            let next = changed(&mut self.random, &case, &other);
            self.take(next)?;
            if begun.elapsed().as_secs() >= 10 * line {
                line = begun.elapsed().as_secs() / 10 + 1;
                self.report(begun.elapsed());
            }
        }
        Ok(())
    }

    /// Returns a case of the corpus, a newer one more often.
    fn chosen(&mut self) -> Case {
        let count = self.corpus.len();
        let last = if self.random.once_in(2) {
            count.min(200)
        } else {
            count
        };
        let at = count - 1 - self.random.below(last);
        self.corpus[at].clone()
    }

    fn report(&self, elapsed: Duration) {
        println!(
            "{} s: {} cases, {} accepted, {} compared, {} kept, {} of {} edges, {} findings",
            elapsed.as_secs(),
            self.counts.cases,
            self.counts.accepted,
            self.counts.compared,
            self.corpus.len(),
            self.seen.edges(),
            coverage::length(),
            self.counts.findings.len(),
        );
    }
}

/// Returns a number for a text, such as the message of a panic.
fn sum(text: &str) -> u32 {
    text.bytes().fold(7, |sum: u32, byte| {
        sum.wrapping_mul(31).wrapping_add(u32::from(byte))
    })
}

/// Returns a smaller case that is wrong in the same way.
fn shrunk(case: Case, kind: &str) -> Case {
    let begun = Instant::now();
    let is_wrong = |case: &Case| run(case).is_err_and(|wrong| wrong.kind == kind);
    let (mut best, mut length) = (case, 64);
    while length > 0 && begun.elapsed() < SHRINKING {
        let before = best.source.len() + best.input.len();
        best = without(best, length, &is_wrong, begun);
        if best.source.len() + best.input.len() == before {
            length /= 2;
        }
    }
    best
}

/// Takes parts of a length out of a case, as long as it stays wrong.
fn without(case: Case, length: usize, is_wrong: &impl Fn(&Case) -> bool, begun: Instant) -> Case {
    let (mut best, mut at) = (case, 0);
    while at < best.source.len().max(best.input.len()) && begun.elapsed() < SHRINKING {
        let mut is_smaller = false;
        let (source, input) = (
            cut_text(&best.source, at, length),
            cut(&best.input, at, length),
        );
        let tries = [
            source.map(|source| Case {
                source,
                ..best.clone()
            }),
            input.map(|input| Case {
                input,
                ..best.clone()
            }),
        ];
        for next in tries.into_iter().flatten() {
            if is_wrong(&next) {
                (best, is_smaller) = (next, true);
                break;
            }
        }
        at += if is_smaller { 0 } else { length };
    }
    best
}

fn cut(bytes: &[u8], at: usize, length: usize) -> Option<Vec<u8>> {
    let to = (at + length).min(bytes.len());
    (at < to).then(|| [&bytes[..at], &bytes[to..]].concat())
}

fn cut_text(text: &str, at: usize, length: usize) -> Option<String> {
    String::from_utf8(cut(text.as_bytes(), at, length)?).ok()
}
