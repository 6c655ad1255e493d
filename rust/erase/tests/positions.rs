//! Erases all sources of the repository, and compares the position of each remaining character.

use rattle_erase::{Paths, erase};
use std::fs;
use std::path::{Path, PathBuf};

/// The names that become others.
const RENAMED: [(&str, &str); 6] = [
    ("crate", "krate"),
    ("collect", "list_in"),
    ("to_vec", "vec_in"),
    ("to_string", "string_in"),
    ("to_ascii_lowercase", "ascii_lowercase_in"),
    ("cloned", "clones"),
];

/// Returns the sources below a folder of the repository, without the files that builds leave in
/// folders `out`.
fn sources(folder: &str) -> Vec<PathBuf> {
    let mut left = vec![Path::new(env!("CARGO_MANIFEST_DIR")).join("../..").join(folder)];
    let mut found = Vec::new();
    while let Some(path) = left.pop() {
        if path.is_dir() {
            if path.ends_with("out") {
                continue;
            }
            left.extend(fs::read_dir(&path).unwrap().map(|entry| entry.unwrap().path()));
        } else if path.to_string_lossy().trim_end_matches(".in").ends_with(".rt") {
            found.push(path);
        }
    }
    found
}

/// Returns whether the line at `at` begins with a name that has become another in the erased line.
fn renamed(source: &[char], erased: &[char]) -> Option<usize> {
    let begins = |line: &[char], name: &str| name.chars().eq(line.iter().copied().take(name.len()));
    let is_renamed = |names: &&(&str, &str)| begins(source, names.0) && begins(erased, names.1);
    RENAMED.iter().find(is_renamed).map(|(name, _)| name.len())
}

/// Returns whether a line differs from the line of the source by blanks and by names alone.
fn is_in_place(source: &str, erased: &str) -> bool {
    if source == erased {
        return true;
    }
    let source: Vec<char> = source.chars().collect();
    let erased: Vec<char> = erased.chars().collect();
    let mut at = 0;
    while at < erased.len().min(source.len()) {
        match renamed(&source[at..], &erased[at..]) {
            Some(length) => at += length,
            None if source[at] == erased[at] || erased[at] == ' ' => at += 1,
            None => return false,
        }
    }
    at == erased.len()
}

#[test]
fn every_token_keeps_its_place() {
    let mut count = 0;
    for path in ["crates", "examples", "tests", "docs"].into_iter().flat_map(sources) {
        let text = fs::read_to_string(&path).unwrap();
        let erased = erase(&text, &Paths::default())
            .unwrap_or_else(|refusal| panic!("{}:{refusal}", path.display()));
        let mut lines = erased.lines();
        for (number, line) in text.lines().enumerate() {
            let left = lines.next().unwrap();
            assert!(is_in_place(line, left), "{}:{}: {left}", path.display(), number + 1);
        }
        for line in lines.filter(|line| !line.is_empty()) {
            assert!(line.starts_with("use ") || line.starts_with("impl Clone for "), "{line}");
        }
        count += 1;
    }
    assert!(count > 500, "{count} sources");
}

#[test]
fn names_become_others_of_the_same_width() {
    for (name, renamed) in RENAMED {
        assert_eq!(name.len(), renamed.len());
    }
}
