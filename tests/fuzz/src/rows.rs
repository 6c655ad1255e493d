//! Cases as rows of a file, and sources and inputs from the rows of other tests.

use crate::check::Case;
use std::fs;
use std::io;
use std::path::Path;

/// Returns bytes as a line: printed characters of ASCII as they are, others escaped.
pub fn escaped(bytes: &[u8]) -> String {
    let mut line = String::new();
    for byte in bytes {
        match byte {
            b'\\' => line.push_str("\\\\"),
            b'\n' => line.push_str("\\n"),
            b' '..=b'~' => line.push(char::from(*byte)),
            _ => line.push_str(&format!("\\x{byte:02X}")),
        }
    }
    line
}

/// Returns the bytes of a line that `escaped` made.
pub fn unescaped(line: &str) -> Option<Vec<u8>> {
    let (mut bytes, mut rest) = (Vec::new(), line);
    while let Some((before, after)) = rest.split_once('\\') {
        bytes.extend_from_slice(before.as_bytes());
        let used = match after.as_bytes().first()? {
            b'\\' => {
                bytes.push(b'\\');
                1
            }
            b'n' => {
                bytes.push(b'\n');
                1
            }
            b'x' => {
                bytes.push(u8::from_str_radix(after.get(1..3)?, 16).ok()?);
                3
            }
            _ => return None,
        };
        rest = &after[used..];
    }
    bytes.extend_from_slice(rest.as_bytes());
    Some(bytes)
}

/// Returns the text of a file of cases.
pub fn written(cases: &[Case]) -> String {
    let mut text = format!("# rows: {}\n", cases.len());
    text.push_str("# Sources, and inputs for their lexers: what the fuzzer met first.\n");
    for case in cases {
        let (source, input) = (escaped(case.source.as_bytes()), escaped(&case.input));
        text.push_str(&format!("\nsource: {source}\ninput: {input}\n"));
    }
    text
}

/// Reads a file of cases.
///
/// # Errors
///
/// Returns an error if the file cannot be read, or a line is no part of a row.
pub fn read(path: &Path) -> io::Result<Vec<Case>> {
    let text = fs::read_to_string(path)?;
    let bad = |line: &str| io::Error::other(format!("{}: {line}", path.display()));
    let (mut cases, mut stated, mut source) = (Vec::new(), None, None);
    for line in text.lines() {
        if let Some(number) = line.strip_prefix("# rows: ") {
            stated = number.parse::<usize>().ok();
        } else if let Some(part) = line.strip_prefix("source: ") {
            source = unescaped(part).and_then(|bytes| String::from_utf8(bytes).ok());
        } else if let Some(part) = line.strip_prefix("input: ") {
            let source = source.take().ok_or_else(|| bad(line))?;
            let input = unescaped(part).ok_or_else(|| bad(line))?;
            cases.push(Case { source, input });
        } else if !line.is_empty() && !line.starts_with("# ") {
            return Err(bad(line));
        }
    }
    match stated == Some(cases.len()) {
        true => Ok(cases),
        false => Err(bad("another number of rows is stated")),
    }
}

/// Returns the text that a line of a row stands for: what is between `⟨` and `⟩` cannot be seen.
fn decoded(line: &str) -> Option<Vec<u8>> {
    let (mut bytes, mut rest) = (Vec::new(), line);
    while let Some((before, after)) = rest.split_once('⟨') {
        bytes.extend_from_slice(before.as_bytes());
        let (inside, next) = after.split_once('⟩')?;
        if let Some((text, times)) = inside.split_once('×') {
            let piece = text
                .as_bytes()
                .repeat(times.parse::<usize>().ok()?.min(5_000));
            bytes.extend_from_slice(&piece);
        } else if let Some(byte) = inside.strip_prefix('x') {
            bytes.push(u8::from_str_radix(byte, 16).ok()?);
        } else if !inside.is_empty() {
            let character = char::from_u32(u32::from_str_radix(inside, 16).ok()?)?;
            bytes.extend_from_slice(character.encode_utf8(&mut [0; 4]).as_bytes());
        }
        rest = next;
    }
    bytes.extend_from_slice(rest.as_bytes());
    Some(bytes)
}

/// Returns the parts of a row of commands, by their names.
fn parts(row: &str) -> Vec<(&str, Vec<u8>)> {
    let mut parts: Vec<(&str, Vec<u8>)> = Vec::new();
    for line in row.lines() {
        if let Some(name) = line.strip_prefix("--- ") {
            parts.push((name, Vec::new()));
        } else if let Some((_, bytes)) = parts.last_mut() {
            bytes.extend_from_slice(&decoded(line).unwrap_or_default());
            bytes.push(b'\n');
        }
    }
    parts
}

/// Adds the cases of a file of rows of commands.
fn add_commands(text: &str, cases: &mut Vec<Case>) {
    for row in text.split("\n=== ") {
        let parts = parts(row);
        let input = parts
            .iter()
            .find(|it| it.0 == "input")
            .map(|it| it.1.clone());
        for (_, bytes) in parts.iter().filter(|it| it.0.ends_with(".rs")) {
            if let Ok(source) = String::from_utf8(bytes.clone()) {
                let input = input.clone().unwrap_or_default();
                cases.push(Case { source, input });
            }
        }
    }
}

/// Adds an enum for each pattern that a row of calls asks about.
fn add_patterns(text: &str, cases: &mut Vec<Case>) {
    for line in text.lines().filter(|line| !line.starts_with("==")) {
        let asked = line
            .split_once(" => ")
            .and_then(|(asked, _)| decoded(asked));
        let pattern = asked.and_then(|bytes| String::from_utf8(bytes).ok());
        if let Some(pattern) = pattern.filter(|it| it.len() < 200) {
            let input = pattern.as_bytes().to_vec();
            let source = format!("enum E {{ #[regex(r###\"{pattern}\"###)] A }}");
            cases.push(Case { source, input });
        }
    }
}

/// Adds an enum for each text between quotes of a table of `tests/generated`, by fours.
fn add_quoted(text: &str, cases: &mut Vec<Case>) {
    let texts: Vec<_> = text.split('\'').skip(1).step_by(2).collect();
    for some in texts.chunks(4) {
        let mut source = String::from("enum E { ");
        for (at, pattern) in some.iter().enumerate() {
            source.push_str(&format!(
                "#[regex(r###\"{pattern}\"###, priority = {at})] V{at}, "
            ));
        }
        source.push('}');
        let input = some.concat().into_bytes();
        cases.push(Case { source, input });
    }
}

/// Adds the cases of all files below a folder.
///
/// # Errors
///
/// Returns an error if a folder or a file cannot be read.
pub fn add_seeds(folder: &Path, cases: &mut Vec<Case>) -> io::Result<()> {
    let mut paths: Vec<_> = fs::read_dir(folder)?
        .map(|it| it.map(|it| it.path()))
        .collect::<Result<_, _>>()?;
    paths.sort();
    for path in paths {
        if path.is_dir() {
            add_seeds(&path, cases)?;
            continue;
        }
        match path.extension().and_then(|it| it.to_str()) {
            Some("rows") if folder.ends_with("calls") => {
                add_patterns(&fs::read_to_string(&path)?, cases)
            }
            Some("rows") => add_commands(&fs::read_to_string(&path)?, cases),
            Some("toml") => add_quoted(&fs::read_to_string(&path)?, cases),
            _ => {}
        }
    }
    Ok(())
}
