//! From the parts of a template to text.

use crate::data::Value;
use crate::parser::{Filter, Part};

/// Renders parts. A name is looked up in the innermost section first.
pub fn render<'v>(parts: &[Part<'_>], around: &mut Vec<&'v Value>, out: &mut String) {
    for part in parts {
        match part {
            Part::Text(text) => out.push_str(text),
            Part::Value { path, default, filters, is_raw } => {
                let text = filtered(text_of(find(path, around), default), filters);
                if *is_raw { out.push_str(&text) } else { push_escaped(&text, out) }
            }
            Part::Section { path, is_inverted, parts } => {
                let value = find(path, around).filter(|value| value.is_true());
                match (value, is_inverted) {
                    (Some(value), false) => {
                        for item in value.items() {
                            around.push(item);
                            render(parts, around, out);
                            around.pop();
                        }
                    }
                    (None, true) => render(parts, around, out),
                    _ => {}
                }
            }
        }
    }
}

/// Returns the value of a path: of no names it is the innermost section's own.
fn find<'v>(path: &[&str], around: &[&'v Value]) -> Option<&'v Value> {
    if path.is_empty() {
        return around.last().copied();
    }
    around.iter().rev().find_map(|value| value.get(path))
}

fn text_of(value: Option<&Value>, default: &str) -> String {
    match value {
        Some(Value::Text(text)) => text.clone(),
        _ => default.to_string(),
    }
}

fn filtered(text: String, filters: &[Filter]) -> String {
    filters.iter().fold(text, |text, filter| match filter {
        Filter::Upper => text.to_uppercase(),
        Filter::Lower => text.to_lowercase(),
        Filter::Length => text.chars().count().to_string(),
    })
}

fn push_escaped(text: &str, out: &mut String) {
    for character in text.chars() {
        match character {
            '&' => out.push_str("&amp;"),
            '<' => out.push_str("&lt;"),
            '>' => out.push_str("&gt;"),
            '"' => out.push_str("&quot;"),
            other => out.push(other),
        }
    }
}
