//! Renders the letter of `data`, and templates each of which has one error.

use std::path::Path;
use std::process::{Command, Output};
use std::{env, fs};

fn template(path: &Path) -> Output {
    Command::new(env!("CARGO_BIN_EXE_template")).arg(path).arg("data/letter.values").output().expect("the program runs")
}

#[test]
fn a_letter_is_rendered() {
    let output = template(Path::new("data/letter.txt"));
    assert_eq!(String::from_utf8_lossy(&output.stdout), fs::read_to_string("data/letter.out").unwrap());
    assert!(output.status.success());
}

/// The template, and the output after the file's name.
const WRONG: [(&str, &str); 9] = [
    ("a {{#x}} b", ":1:3: the section is not closed\na {{#x}} b\n  ^^^^^^\n"),
    ("a\n{{/x}}", ":2:1: no section is open here\n{{/x}}\n^^^^^^\n"),
    ("{{#x}}{{/y}}", ":1:7: the open section is x\n{{#x}}{{/y}}\n      ^^^^^^\n"),
    ("{{x", ":1:4: the template ends inside a tag\n{{x\n   ^\n"),
    ("{{x ?? y}}", ":1:8: a text in quotes is expected after ??\n{{x ?? y}}\n       ^\n"),
    ("{{x | big}}", ":1:7: the filters are upper, lower and length\n{{x | big}}\n      ^^^\n"),
    ("{{x ?? \"a}}", ":1:8: the text is not closed\n{{x ?? \"a}}\n       ^^^^\n"),
    ("{{> x}}", ":1:3: this does not belong into a tag\n{{> x}}\n  ^\n"),
    ("é {{! a", ":1:3: the comment is not closed\né {{! a\n  ^^^^^\n"),
];

#[test]
fn each_error_is_shown_in_its_line() {
    for (number, (text, wanted)) in WRONG.iter().enumerate() {
        let path = env::temp_dir().join(format!("template-{}-{number}.txt", std::process::id()));
        fs::write(&path, text).unwrap();
        let output = template(&path);
        let found = String::from_utf8_lossy(&output.stderr).replace(path.to_str().unwrap(), "");
        fs::remove_file(&path).unwrap();
        assert_eq!(found, *wanted, "of {text:?}");
        assert_eq!(output.status.code(), Some(1));
    }
}
