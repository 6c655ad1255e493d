//! Reads settings files: sections, names and values.

/// The lexers, as the build script expands them from `src/lexers.rs`.
pub mod lexers {
    include!(concat!(env!("OUT_DIR"), "/lexers.rs"));
}

use lexers::{Fault, Line, Setting};
use logos::Logos;

/// A section with its settings. The settings before the first section have an empty name.
#[derive(Clone, Debug, Default, PartialEq)]
pub struct Section<'s> {
    pub name: &'s str,
    pub settings: Vec<Setting<'s>>,
}

/// Returns the sections of a text, or the byte at which a line is wrong, and how.
pub fn read(text: &str) -> Result<Vec<Section<'_>>, (usize, Fault)> {
    let mut sections = vec![Section::default()];
    let mut lines = Line::lexer(text);
    while let Some(line) = lines.next() {
        match line.map_err(|fault| (lines.span().start, fault))? {
            Line::Section(name) => sections.push(Section { name, settings: Vec::new() }),
            Line::Setting(setting) => sections.last_mut().expect("there is one").settings.push(setting),
        }
    }
    Ok(sections)
}
