//! Runs the program on the files of `data`, and on texts each of which has one error.

use std::path::Path;
use std::process::{Command, Output};
use std::{env, fs};

fn json(path: &Path) -> Output {
    Command::new(env!("CARGO_BIN_EXE_json")).arg(path).output().expect("the program runs")
}

#[test]
fn a_sample_is_printed_one_member_a_line() {
    let output = json(Path::new("data/sample.json"));
    assert_eq!(String::from_utf8_lossy(&output.stdout), fs::read_to_string("data/sample.out").unwrap());
    assert!(output.status.success());
}

/// The text, and the output after the file's name.
const WRONG: [(&str, &str); 16] = [
    ("{\"a\": 01}", ":1:7: a number has no zeros in front\n{\"a\": 01}\n      ^^\n"),
    ("[1, 2.]", ":1:5: a point stands between digits\n[1, 2.]\n    ^^\n"),
    ("[.5]", ":1:2: a point stands between digits\n[.5]\n ^^\n"),
    ("+1", ":1:1: a number has no plus sign\n+1\n^^\n"),
    ("[\n  \"é\", \"open\n]", ":2:8: the text is still open at the end of the line\n  \"é\", \"open\n       ^^^^^\n"),
    ("\"a\\q\"", ":1:1: no such escape\n\"a\\q\"\n^^^^\n"),
    ("\"\\u12\"", ":1:1: an escape by number has four digits\n\"\\u12\"\n^^^^^\n"),
    ("{'a': 1}", ":1:2: texts stand in double quotes\n{'a': 1}\n ^^^\n"),
    ("[1] /* open", ":1:5: the comment is not closed\n[1] /* open\n    ^^^^^^^\n"),
    ("[nul]", ":1:2: the only words are null, true and false\n[nul]\n ^^^\n"),
    ("[1 2]", ":1:4: a comma is expected here, or the end of the items\n[1 2]\n   ^\n"),
    ("{\"a\" 1}", ":1:6: a colon is expected after the name\n{\"a\" 1}\n     ^\n"),
    ("{1: 2}", ":1:2: a name in double quotes is expected here\n{1: 2}\n ^\n"),
    ("[1, ]", ":1:5: a value is expected here\n[1, ]\n    ^\n"),
    ("[1,\n", ":2:1: a value is expected, but the text ends\n\n^\n"),
    ("1 €", ":1:3: no token of JSON begins here\n1 €\n  ^\n"),
];

#[test]
fn each_error_is_shown_in_its_line() {
    for (number, (text, wanted)) in WRONG.iter().enumerate() {
        let path = env::temp_dir().join(format!("json-{}-{number}.json", std::process::id()));
        fs::write(&path, text).unwrap();
        let output = json(&path);
        let found = String::from_utf8_lossy(&output.stderr).replace(path.to_str().unwrap(), "");
        fs::remove_file(&path).unwrap();
        assert_eq!(found, *wanted, "of {text:?}");
        assert_eq!(output.status.code(), Some(1));
    }
}
