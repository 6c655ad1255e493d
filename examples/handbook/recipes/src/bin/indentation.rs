//! Blocks by indentation.

use logos::{Lexer, Logos};

#[derive(Logos, Clone, Debug, PartialEq)]
#[logos(skip " +")]
enum Token<'s> {
    #[regex("(\n *)+", indentation)]
    Line(usize),
    #[regex("[a-z]+")]
    Word(&'s str),
    #[token(":")]
    Colon,
    /// A line is deeper than the one before. No pattern matches this.
    Indent,
    /// A block ends. No pattern matches this.
    Dedent,
}

/// Returns by how many blanks the next line with a token begins.
fn indentation<'s>(lexer: &mut Lexer<'s, Token<'s>>) -> usize {
    let slice = lexer.slice();
    slice.len() - slice.rfind('\n').map_or(0, |at| at + 1)
}

/// The tokens of a text, with those of its blocks.
struct Blocks<'s> {
    lexer: Lexer<'s, Token<'s>>,
    /// The indentations of the blocks that are open.
    open: Vec<usize>,
    /// The indentation of the line that begins, until its blocks are closed or opened.
    line: Option<usize>,
}

impl<'s> Blocks<'s> {
    fn new(text: &'s str) -> Self {
        Blocks { lexer: Token::lexer(text), open: Vec::new(), line: None }
    }

    /// Returns the token between the last line and one of this indentation, if there is one.
    fn change(&mut self, line: usize) -> Option<Result<Token<'s>, String>> {
        let current = self.open.last().copied().unwrap_or(0);
        if line < current {
            self.open.pop();
            let outer = self.open.last().copied().unwrap_or(0);
            if line <= outer {
                return Some(Ok(Token::Dedent));
            }
            self.open.push(line);
            return Some(Err(format!("{line} blanks, where a block has {outer} or {current}")));
        }
        self.line = None;
        (line > current).then(|| {
            self.open.push(line);
            Ok(Token::Indent)
        })
    }
}

impl<'s> Iterator for Blocks<'s> {
    type Item = Result<Token<'s>, String>;

    fn next(&mut self) -> Option<Self::Item> {
        if let Some(change) = self.line.and_then(|line| self.change(line)) {
            return Some(change);
        }
        match self.lexer.next() {
            Some(Ok(Token::Line(line))) => {
                self.line = Some(line);
                Some(Ok(Token::Line(line)))
            }
            Some(item) => Some(item.map_err(|()| format!("no token at {:?}", self.lexer.span()))),
            // The end of the text closes all blocks.
            None => self.open.pop().map(|_| Ok(Token::Dedent)),
        }
    }
}

fn main() {
    for text in ["if a:\n  b\n\n  if c:\n      d\ne:\n   f", "a:\n   b\n c"] {
        for item in Blocks::new(text) {
            println!("{item:?}");
        }
    }
}
