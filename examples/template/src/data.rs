//! Values by dotted names.

use std::collections::BTreeMap;

/// A value: a text, or values by name. A list is a map whose names are 0, 1, and so on.
#[derive(Debug, PartialEq)]
pub enum Value {
    Text(String),
    Map(BTreeMap<String, Value>),
}

/// Reads lines `name.name = text`. Other lines are left out.
pub fn read(text: &str) -> Value {
    let mut root = Value::Map(BTreeMap::new());
    for line in text.lines() {
        if let Some((path, value)) = line.split_once('=') {
            let mut at = &mut root;
            for name in path.trim().split('.') {
                if let Value::Text(_) = at {
                    *at = Value::Map(BTreeMap::new());
                }
                let Value::Map(values) = at else { unreachable!() };
                at = values.entry(name.into()).or_insert_with(|| Value::Map(BTreeMap::new()));
            }
            *at = Value::Text(value.trim().into());
        }
    }
    root
}

impl Value {
    /// Returns the value of a path inside this one.
    pub fn get(&self, path: &[&str]) -> Option<&Value> {
        path.iter().try_fold(self, |at, name| match at {
            Value::Map(values) => values.get(*name),
            Value::Text(_) => None,
        })
    }

    /// Returns the items of a list in order, or the value alone.
    pub fn items(&self) -> Vec<&Value> {
        match self {
            Value::Map(values) if !values.is_empty() && values.keys().all(|name| name.parse::<usize>().is_ok()) => {
                let mut items: Vec<_> = values.iter().collect();
                items.sort_by_key(|(name, _)| name.parse::<usize>().unwrap_or(0));
                items.into_iter().map(|(_, value)| value).collect()
            }
            _ => vec![self],
        }
    }

    /// Returns whether a section of this value is rendered.
    pub fn is_true(&self) -> bool {
        match self {
            Value::Text(text) => !text.is_empty() && text != "false",
            Value::Map(values) => !values.is_empty(),
        }
    }
}
