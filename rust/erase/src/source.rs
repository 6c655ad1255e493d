//! Defines `Source`: the tokens of a source, and the operations with which rules examine and change
//! the tokens. Used by `rules` and `attributes`.

use crate::Refusal;
use crate::tokens::{Kind, token_at};

/// A token of code, which consists of the bytes `from..to` of the source.
struct Token {
    from: usize,
    to: usize,
    /// The number of the closing bracket if this token is an opening bracket, and 0 otherwise.
    closing: usize,
}

/// A source, with the numbered tokens of its code. Comments, ghost items and clauses are not tokens
/// of code.
pub(crate) struct Source<'t> {
    text: &'t str,
    tokens: Vec<Token>,
    /// The byte ranges of all comments.
    comments: Vec<(usize, usize)>,
    /// The byte ranges to change, each with the name that replaces its bytes. The name is empty if
    /// the bytes become blanks.
    edits: Vec<(usize, usize, &'static str)>,
}

impl<'t> Source<'t> {
    /// Reads a source, and blanks its ghost items and clauses. Returns a refusal if the brackets of
    /// the source are not paired.
    pub(crate) fn new(text: &'t str) -> Result<Source<'t>, Refusal> {
        let (tokens, comments, edits) = (Vec::new(), Vec::new(), Vec::new());
        let mut source = Source { text, tokens, comments, edits };
        let (mut at, mut open) = (0, Vec::new());
        while at < text.len() {
            if text.as_bytes()[at].is_ascii_whitespace() {
                at += 1;
                continue;
            }
            let (kind, to) = token_at(text, at)?;
            match kind {
                Kind::Comment => source.comments.push((at, to)),
                Kind::Ghost => source.blank_text(at, to),
                Kind::Code => source.push(at, to, &mut open)?,
            }
            at = to;
        }
        match open.pop() {
            Some(n) => source.refusal(n, "a bracket that is not closed"),
            None => Ok(source),
        }
    }

    /// Adds the token at `from..to`. The number of an opening bracket is added to `open`. A closing
    /// bracket is paired with the last bracket in `open`. Returns a refusal if the two brackets do
    /// not match.
    fn push(&mut self, from: usize, to: usize, open: &mut Vec<usize>) -> Result<(), Refusal> {
        let n = self.tokens.len();
        self.tokens.push(Token { from, to, closing: 0 });
        match (open.last().map_or("", |&last| self.at(last)), self.at(n)) {
            (_, "(" | "[" | "{") => open.push(n),
            ("(", ")") | ("[", "]") | ("{", "}") => {
                open.pop().into_iter().for_each(|last| self.tokens[last].closing = n);
            }
            (_, ")" | "]" | "}") => return self.refusal(n, "a bracket that closes none"),
            _ => {}
        }
        Ok(())
    }

    /// Returns the number of tokens.
    pub(crate) fn len(&self) -> usize {
        self.tokens.len()
    }

    /// Returns the text of token number `n`, or an empty text if there is no such token.
    pub(crate) fn at(&self, n: usize) -> &'t str {
        self.tokens.get(n).map_or("", |token| &self.text[token.from..token.to])
    }

    /// Returns the text of the token before token number `n`, or an empty text before the first
    /// token.
    pub(crate) fn before(&self, n: usize) -> &'t str {
        n.checked_sub(1).map_or("", |n| self.at(n))
    }

    /// Returns whether the tokens from token number `n` on begin with the texts in `pattern`.
    pub(crate) fn matches(&self, n: usize, pattern: &[&str]) -> bool {
        pattern.iter().enumerate().all(|(k, text)| self.at(n + k) == *text)
    }

    /// Returns the number of the first token from token number `n` on whose text is in `texts`, or
    /// a refusal if there is no such token.
    pub(crate) fn find(&self, n: usize, texts: &[&str]) -> Result<usize, Refusal> {
        let found = (n..self.len()).find(|&k| texts.contains(&self.at(k)));
        found.map_or_else(|| self.refusal(n, "an item that does not end"), Ok)
    }

    /// Returns the number of the token that closes the opening bracket at token number `n`, or `n`
    /// if this token is not an opening bracket.
    pub(crate) fn closing(&self, n: usize) -> usize {
        self.tokens.get(n).map_or(n, |token| token.closing.max(n))
    }

    pub(crate) fn refusal<T>(&self, n: usize, message: &'static str) -> Result<T, Refusal> {
        Err(Refusal::new(self.tokens.get(n).map_or(self.text.len(), |token| token.from), message))
    }

    /// Replaces token number `n` with `name`, which must have the same width as the token.
    pub(crate) fn rename(&mut self, n: usize, name: &'static str) {
        self.edits.push((self.tokens[n].from, self.tokens[n].to, name));
    }

    /// Blanks the source from token number `from` to token number `to`, inclusive.
    pub(crate) fn blank(&mut self, from: usize, to: usize) {
        self.add_blanks(self.tokens[from].from, self.tokens[to].to);
    }

    /// Blanks the item from token number `from` to token number `to`, inclusive, together with its
    /// visibility and the comments directly above it.
    pub(crate) fn blank_item(&mut self, from: usize, to: usize) {
        let start = match self.before(from) {
            "pub" => from - 1,
            ")" if from > 3 && self.at(from - 4) == "pub" => from - 4,
            _ => from,
        };
        self.blank_text(self.tokens[start].from, self.tokens[to].to);
    }

    /// Blanks the bytes `from..to` and the comments on the lines directly above, except for
    /// comments that document the file.
    fn blank_text(&mut self, from: usize, to: usize) {
        let mut start = from;
        let above = self.comments.partition_point(|comment| comment.1 <= from);
        for &(comment, end) in self.comments[..above].iter().rev() {
            let before = self.text[..comment].trim_end_matches(' ');
            let is_first = before.is_empty() || before.ends_with('\n');
            let is_of_file = self.text[comment..].starts_with("//!");
            if is_of_file || !is_first || self.text[end..start].trim_matches([' ', '\r']) != "\n" {
                break;
            }
            start = comment;
        }
        self.add_blanks(start, to);
    }

    /// Blanks the bytes `from..to`, and the end of their line if nothing else follows on the line.
    fn add_blanks(&mut self, from: usize, to: usize) {
        let rest = self.text[to..].trim_start_matches([' ', '\r']);
        let end = self.text.len() - rest.len();
        self.edits.push((from, if rest.starts_with('\n') { end + 1 } else { to }, ""));
    }

    /// Returns the text of the source with all edits applied.
    pub(crate) fn edited(mut self) -> String {
        self.edits.sort_unstable_by_key(|edit| edit.0);
        let mut output = String::with_capacity(self.text.len() + 256);
        let mut kept = 0;
        for &(from, to, name) in self.edits.iter() {
            if to > kept {
                output += &self.text[kept.min(from)..from];
                output += name;
                push_blanks(&mut output, &self.text[from.max(kept)..to], name);
                kept = to;
            }
        }
        output + &self.text[kept..]
    }
}

/// Appends a blank or a line end for each character of `text` if `name` is empty, and nothing
/// otherwise. Trailing blanks of lines are removed.
fn push_blanks(output: &mut String, text: &str, name: &str) {
    for character in text.chars().filter(|_| name.is_empty()) {
        if character == '\n' {
            output.truncate(output.trim_end_matches(' ').len());
        }
        output.push(if character == '\n' { '\n' } else { ' ' });
    }
}
