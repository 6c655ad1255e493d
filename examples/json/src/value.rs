//! Values, and how they are printed.

use std::fmt;

/// A value. Texts are slices of the source, with their escapes and quotes.
#[derive(Debug, PartialEq)]
pub enum Value<'s> {
    /// `null`, `true`, `false`, a number or a text, as it is written.
    Plain(&'s str),
    Array(Vec<Value<'s>>),
    Object(Vec<(&'s str, Value<'s>)>),
}

impl fmt::Display for Value<'_> {
    fn fmt(&self, f: &mut fmt::Formatter<'_>) -> fmt::Result {
        self.print(f, 0)
    }
}

impl Value<'_> {
    fn print(&self, f: &mut fmt::Formatter<'_>, depth: usize) -> fmt::Result {
        match self {
            Value::Plain(text) => f.write_str(text),
            Value::Array(values) => lines(f, depth, ['[', ']'], values, |f, value| value.print(f, depth + 1)),
            Value::Object(members) => lines(f, depth, ['{', '}'], members, |f, (name, value)| {
                write!(f, "{name}: ")?;
                value.print(f, depth + 1)
            }),
        }
    }
}

/// Prints items between brackets, one a line.
fn lines<T>(
    f: &mut fmt::Formatter<'_>,
    depth: usize,
    [open, close]: [char; 2],
    items: &[T],
    print: impl Fn(&mut fmt::Formatter<'_>, &T) -> fmt::Result,
) -> fmt::Result {
    write!(f, "{open}")?;
    for (number, item) in items.iter().enumerate() {
        write!(f, "{}\n{:width$}", if number > 0 { "," } else { "" }, "", width = 2 * (depth + 1))?;
        print(f, item)?;
    }
    if !items.is_empty() {
        write!(f, "\n{:width$}", "", width = 2 * depth)?;
    }
    write!(f, "{close}")
}
