//! The text of an enum, with the byte ranges of the enum's tokens. Used by `answer`, `fault`,
//! `fill` and `warning`.

use proc_macro::{Delimiter, Group, Ident, Literal, Spacing, Span, TokenStream, TokenTree};
use std::ops::Range;

/// The text of an enum, with the enum's token trees and tokens.
#[derive(Default)]
pub struct Question {
    pub text: String,
    nodes: Vec<Node>,
    tokens: Vec<Token>,
}

/// A token tree of the enum, with its byte range in the text.
struct Node {
    from: usize,
    to: usize,
    tree: TokenTree,
    inner: Vec<Node>,
}

/// A token of the enum, with its byte range in the text. Delimiters are also tokens.
struct Token {
    from: usize,
    to: usize,
    span: Span,
    is_literal: bool,
}

/// The spans of the first and the last token that overlap a byte range.
pub struct Place {
    pub first: Span,
    pub last: Span,
    /// The byte range of a literal, if only this literal overlaps the byte range and is not
    /// completely in it.
    pub literal: Option<Range<usize>>,
}

impl Question {
    /// Returns the text of `item`, with the token trees and tokens of `item`.
    pub fn new(item: TokenStream) -> Question {
        let mut question = Question::default();
        question.nodes = question.print(item);
        question.text.push('\n');
        question
    }

    /// Returns the token trees in a byte range, or `None` if the range does not begin and end with
    /// token trees between the same delimiters.
    pub fn cut(&self, range: &Range<usize>) -> Option<Vec<TokenTree>> {
        cut(&self.nodes, range.start, range.end)
    }

    /// Returns the spans of the first and the last token of the type of a variant's field. The name
    /// of the variant ends at the byte offset `end`. Returns `None` if there is no such variant, or
    /// if the variant has no field in parentheses. If the variant has several fields, the spans
    /// include the types of all fields.
    pub fn field_after(&self, end: usize) -> Option<(Span, Span)> {
        let variants = self.nodes.last()?;
        let after = variants.inner.partition_point(|node| node.from < end);
        let field = variants
            .inner
            .get(after)
            .filter(|node| is_parenthesized(node))?;
        let name = variants.inner.get(after.checked_sub(1)?)?;
        let type_ = field.inner.get(field_start(&field.inner)..)?;
        let (first, last) = (type_.first()?, type_.last()?);
        (name.to == end).then_some((first.tree.span(), last.tree.span()))
    }

    /// Returns whether the token at the byte offset `at` is in an attribute. If no token is at
    /// `at`, the next token counts.
    pub fn is_in_attribute(&self, at: usize) -> bool {
        is_in_attribute(&self.nodes, at)
    }

    /// Returns the spans of the enum's name, or `None` if the item is not an enum.
    pub fn name(&self) -> Option<Place> {
        let name = self.name_node()?;
        self.place(&(name.from..name.to))
    }

    /// Returns the description of the enum for a message: "the enum" with its name, or "this item"
    /// if the item is not an enum.
    pub fn described(&self) -> String {
        match self.name_node() {
            Some(name) => format!("the enum `{}`", name.tree),
            None => "this item".into(),
        }
    }

    fn name_node(&self) -> Option<&Node> {
        let start = self.nodes.iter().position(|node| is_named(node, "enum"))?;
        self.nodes.get(start + 1)
    }

    /// Returns whether an attribute `#[logos(..)]` of the enum has an argument that begins with the
    /// identifier `name`.
    pub fn has_option(&self, name: &str) -> bool {
        self.nodes.iter().any(|node| match node.inner.as_slice() {
            [head, arguments] if is_named(head, "logos") => arguments
                .inner
                .split(is_comma)
                .any(|argument| argument.first().is_some_and(|node| is_named(node, name))),
            _ => false,
        })
    }

    /// Returns the spans of the first and the last token that overlap a byte range. An empty range
    /// counts as the byte at its start. Returns `None` if no token overlaps the range.
    pub fn place(&self, range: &Range<usize>) -> Option<Place> {
        let from = range.start;
        let to = range.end.max(from.saturating_add(1));
        let start = self.tokens.partition_point(|token| token.to <= from);
        let end = self.tokens.partition_point(|token| token.from < to);
        let met = self.tokens.get(start..end)?;
        let (first, last) = (met.first()?, met.last()?);
        let is_part =
            first.is_literal && first.from == last.from && (first.from < from || to < first.to);
        Some(Place {
            first: first.span,
            last: last.span,
            literal: is_part.then_some(first.from..first.to),
        })
    }

    /// Appends token trees to the text, and returns the token trees with their byte ranges.
    fn print(&mut self, trees: TokenStream) -> Vec<Node> {
        trees
            .into_iter()
            .map(|tree| self.print_tree(tree))
            .collect()
    }

    fn print_tree(&mut self, tree: TokenTree) -> Node {
        let from = self.text.len();
        let mut inner = Vec::new();
        let to;
        match &tree {
            TokenTree::Group(group) => (inner, to) = self.print_group(group),
            TokenTree::Ident(name) => to = self.push(&printed(name), name.span()),
            TokenTree::Literal(literal) => to = self.push_literal(literal),
            TokenTree::Punct(punct) => {
                to = self.push(punct.as_char().encode_utf8(&mut [0; 4]), punct.span());
                if punct.spacing() == Spacing::Joint {
                    self.text.pop();
                }
            }
        }
        Node {
            from,
            to,
            tree,
            inner,
        }
    }

    /// Appends a group to the text, and returns its contents and the byte offset of its end.
    fn print_group(&mut self, group: &Group) -> (Vec<Node>, usize) {
        let Some((open, close)) = delimiters(group.delimiter()) else {
            // A group from the argument of another macro has no delimiters.
            let inner = self.print(group.stream());
            let to = inner.last().map_or(self.text.len(), |node| node.to);
            return (inner, to);
        };
        self.push(open, group.span_open());
        let inner = self.print(group.stream());
        (inner, self.push(close, group.span_close()))
    }

    /// Appends a token to the text and to the tokens, and returns the byte offset of its end. In
    /// the text, the token is followed by a blank, or by a line end if it is a comma or a closing
    /// bracket. The line ends keep lines short.
    fn push(&mut self, text: &str, span: Span) -> usize {
        let from = self.text.len();
        let to = from + text.len();
        self.text.push_str(text);
        self.text
            .push(if matches!(text, "," | "]") { '\n' } else { ' ' });
        self.tokens.push(Token {
            from,
            to,
            span,
            is_literal: false,
        });
        to
    }

    fn push_literal(&mut self, literal: &Literal) -> usize {
        let to = self.push(&literal.to_string(), literal.span());
        if let Some(token) = self.tokens.last_mut() {
            token.is_literal = true;
        }
        to
    }
}

/// Returns the printed form of a name. A `$` is left out, because a source cannot contain `$crate`.
fn printed(name: &Ident) -> String {
    name.to_string().trim_start_matches('$').into()
}

fn delimiters(delimiter: Delimiter) -> Option<(&'static str, &'static str)> {
    match delimiter {
        Delimiter::Parenthesis => Some(("(", ")")),
        Delimiter::Brace => Some(("{", "}")),
        Delimiter::Bracket => Some(("[", "]")),
        Delimiter::None => None,
    }
}

/// Returns the token trees in the byte range from `from` to `to`, or `None` if the range does not
/// begin and end with token trees of one level.
fn cut(nodes: &[Node], from: usize, to: usize) -> Option<Vec<TokenTree>> {
    let first = nodes.partition_point(|node| node.to <= from);
    let end = nodes.partition_point(|node| node.from < to);
    match nodes.get(first..end)? {
        run @ [head, ..] if head.from == from && run[run.len() - 1].to == to => {
            Some(run.iter().map(|node| node.tree.clone()).collect())
        }
        [node] => cut(&node.inner, from, to),
        _ => None,
    }
}

fn is_named(node: &Node, name: &str) -> bool {
    matches!(&node.tree, TokenTree::Ident(_)) && node.tree.to_string() == name
}

fn is_comma(node: &Node) -> bool {
    matches!(&node.tree, TokenTree::Punct(punct) if punct.as_char() == ',')
}

fn is_parenthesized(node: &Node) -> bool {
    matches!(&node.tree, TokenTree::Group(group) if group.delimiter() == Delimiter::Parenthesis)
}

/// Returns the number of token trees before the type of a field. These token trees are the
/// attributes of the field.
fn field_start(nodes: &[Node]) -> usize {
    let is_hash = |node: &Node| matches!(&node.tree, TokenTree::Punct(p) if p.as_char() == '#');
    2 * nodes.chunks(2).take_while(|pair| is_hash(&pair[0])).count()
}

fn is_in_attribute(nodes: &[Node], at: usize) -> bool {
    let found = nodes.partition_point(|node| node.to <= at);
    let Some(node) = nodes.get(found) else {
        return false;
    };
    let is_hash = |node: &Node| matches!(&node.tree, TokenTree::Punct(p) if p.as_char() == '#');
    let is_attribute = found > 0 && is_hash(&nodes[found - 1]);
    is_attribute || is_in_attribute(&node.inner, at)
}
