//! Reads settings, and texts each of which has one error.

use ini::lexers::{Fault, Setting, Value};
use ini::{read, Section};

#[test]
fn sections_have_their_settings_in_order() {
    let sections = read(include_str!("../data/sample.ini")).unwrap();
    let names: Vec<_> = sections.iter().map(|section| (section.name, section.settings.len())).collect();
    assert_eq!(names, [("", 1), ("server", 3), ("log", 2)]);
    let hosts = Setting { name: "hosts", value: vec![Value::Word("a.example"), Value::Text("b c"), Value::Number(-7)] };
    assert_eq!(sections[1].settings[1], hosts);
    assert_eq!(sections[2].settings[0], Setting { name: "verbose", value: vec![Value::Flag(true)] });
}

#[test]
fn an_empty_text_has_no_settings() {
    assert_eq!(read(""), Ok(vec![Section::default()]));
}

#[test]
fn errors_have_their_places() {
    assert_eq!(read("a = 1\n?"), Err((6, Fault::Line)));
    assert_eq!(read("[open\n"), Err((0, Fault::Line)));
    assert_eq!(read("a = 1\nb = 2 ! 3\n"), Err((6, Fault::Value(6))));
    assert_eq!(Fault::Value(6).to_string(), "no value at byte 6 of the line");
}
