//! Functions that recognize the kinds of types that options usually have: paths, references,
//! tuples, slices and arrays. Used by `stub`.

use proc_macro::{Delimiter, Group, TokenTree};

/// The remaining token trees. Each method removes token trees of a certain form from the front, and
/// returns whether the method found this form.
struct Rest<'a>(&'a [TokenTree]);

/// Returns whether `trees` is one type of the kinds that this module recognizes.
pub fn is_type(trees: &[TokenTree]) -> bool {
    let mut rest = Rest(trees);
    rest.type_() && rest.0.is_empty()
}

/// Returns whether `trees` is one path.
pub fn is_path(trees: &[TokenTree]) -> bool {
    let mut rest = Rest(trees);
    rest.path() && rest.0.is_empty()
}

impl Rest<'_> {
    /// Removes the next token if it is the punctuation character `c`, and returns whether a token
    /// was removed.
    fn punct(&mut self, c: char) -> bool {
        let found = matches!(self.0, [TokenTree::Punct(punct), ..] if punct.as_char() == c);
        self.skip_if(found)
    }

    /// Removes the next token if it is an identifier or a keyword, and returns whether a token was
    /// removed.
    fn word(&mut self) -> bool {
        let found = matches!(self.0, [TokenTree::Ident(_), ..]);
        self.skip_if(found)
    }

    fn skip_if(&mut self, found: bool) -> bool {
        if found {
            self.0 = &self.0[1..];
        }
        found
    }

    fn type_(&mut self) -> bool {
        if self.punct('&') {
            return (!self.punct('\'') || self.word()) && self.type_();
        }
        match self.0 {
            [TokenTree::Group(group), ..] => {
                let fits = is_group_type(group);
                self.skip_if(fits)
            }
            _ => self.path(),
        }
    }

    fn path(&mut self) -> bool {
        if self.punct(':') && !self.punct(':') {
            return false;
        }
        loop {
            if !self.word() || self.punct('<') && !self.arguments() {
                return false;
            }
            if !self.punct(':') {
                return true;
            }
            if !self.punct(':') {
                return false;
            }
        }
    }

    /// Removes lifetimes and types that are separated by commas, and the closing angle bracket.
    /// Returns whether the token trees have this form.
    fn arguments(&mut self) -> bool {
        while !self.punct('>') {
            let fits = if self.punct('\'') {
                self.word()
            } else {
                self.type_()
            };
            let at_end = matches!(self.0, [TokenTree::Punct(punct), ..] if punct.as_char() == '>');
            if !fits || !self.punct(',') && !at_end {
                return false;
            }
        }
        true
    }
}

fn is_group_type(group: &Group) -> bool {
    let trees: Vec<TokenTree> = group.stream().into_iter().collect();
    let is = |tree: &TokenTree, c| matches!(tree, TokenTree::Punct(punct) if punct.as_char() == c);
    match group.delimiter() {
        // A type that another macro passes on.
        Delimiter::None => true,
        Delimiter::Parenthesis => {
            trees.is_empty() || trees.split(|tree| is(tree, ',')).all(is_type)
        }
        Delimiter::Bracket => match trees.iter().position(|tree| is(tree, ';')) {
            Some(end) => {
                is_type(&trees[..end])
                    && matches!(
                        trees[end + 1..],
                        [TokenTree::Literal(_) | TokenTree::Ident(_)]
                    )
            }
            None => is_type(&trees),
        },
        Delimiter::Brace => false,
    }
}
