//! Functions that read the text of an implementation as tokens, and replace the pieces of the
//! source by the user's own tokens.

use crate::answer::{Failure, Implementation, Piece};
use crate::question::Question;
use proc_macro::{Delimiter, Group, Span, TokenStream, TokenTree};
use std::ops::Range;
use std::vec::IntoIter;

/// The attribute before an implementation. The attribute silences Clippy lints for generated code.
/// Clippy detects by itself that the user's tokens come from a macro.
const LINTS: &str = "#[allow(clippy::manual_range_contains, clippy::question_mark)] ";

/// The user's tokens for a piece of an implementation.
struct Filling {
    /// The byte range of the piece in the implementation.
    range: Range<usize>,
    tokens: Vec<TokenTree>,
    /// The span of the piece, such as a callback, if the piece is from an attribute. Errors in the
    /// generated code right after the piece are also shown at this span.
    anchor: Option<Span>,
    /// The spans of the first and the last token of a field's type, if the piece is the name of a
    /// variant that has a field.
    field: Option<(Span, Span)>,
}

/// Returns the tokens of `implementation`, with the user's own tokens in place of the pieces. The
/// user's tokens keep their spans.
///
/// # Errors
///
/// Returns a message if the text of the implementation cannot be read as Rust tokens.
pub fn tokens(
    implementation: &Implementation,
    question: &Question,
) -> Result<TokenStream, Failure> {
    let pieces = implementation.pieces.iter();
    let fillings: Vec<Filling> = pieces
        .filter_map(|piece| filling(piece, question))
        .collect();
    let name = new_name(&implementation.text);
    let stream = with_name(&implementation.text, &fillings, &name)
        .parse()
        .map_err(|_| Failure("the lexer that the library makes is no Rust".into()))?;
    let fillings = fillings.into_iter();
    Ok(Rest { name, fillings }.fill(stream, None).0)
}

/// Returns the user's tokens for a piece, or `None` if the piece does not consist of whole tokens
/// in the source. In that case, the printed form of the piece remains.
fn filling(piece: &Piece, question: &Question) -> Option<Filling> {
    let tokens = question.cut(&piece.source)?;
    let is_in_attribute = question.is_in_attribute(piece.source.start);
    Some(Filling {
        range: piece.range.clone(),
        anchor: anchor(&tokens).filter(|_| is_in_attribute),
        field: question.field_after(piece.source.end),
        tokens,
    })
}

/// Returns the span of the last token if this token is a name, and the span of the first token
/// otherwise. Returns `None` if there are no tokens.
fn anchor(tokens: &[TokenTree]) -> Option<Span> {
    match tokens {
        [.., TokenTree::Ident(name)] => Some(name.span()),
        _ => Some(tokens.first()?.span()),
    }
}

/// Returns a name that does not occur in `text`.
fn new_name(text: &str) -> String {
    let mut name = String::from("logos_piece");
    while text.contains(&name) {
        name.push('_');
    }
    name
}

/// Returns [`LINTS`], followed by the text of an implementation in which `name` replaces each piece
/// that is filled in.
fn with_name(text: &str, fillings: &[Filling], name: &str) -> String {
    let mut named = String::with_capacity(LINTS.len() + text.len());
    named.push_str(LINTS);
    let mut from = 0;
    for filling in fillings {
        named.push_str(text.get(from..filling.range.start).unwrap_or_default());
        named.push_str(name);
        from = filling.range.end;
    }
    named.push_str(text.get(from..).unwrap_or_default());
    named
}

/// The name that replaces pieces, and the fillings for the remaining occurrences of the name.
struct Rest {
    name: String,
    fillings: IntoIter<Filling>,
}

impl Rest {
    /// Returns the tokens of `stream`, the contents of a group, with the pieces filled in, and the
    /// last anchor that is directly in the group.
    ///
    /// Each token of the generated code is shown at the preceding anchor in the group or in its
    /// inner groups. Tokens before the first anchor are shown at `before`, the anchor before the
    /// group, if the group is in parentheses.
    fn fill(&mut self, stream: TokenStream, before: Option<Span>) -> (TokenStream, Option<Span>) {
        if self.is_done() && before.is_none() {
            return (stream, None);
        }
        let (mut anchor, mut own, mut field) = (before, None, None);
        let mut filled = Vec::new();
        for tree in stream {
            if let Some(filling) = self.filling_at(&tree) {
                (anchor, own) = (filling.anchor.or(anchor), filling.anchor.or(own));
                field = filling.field;
                filled.extend(filling.tokens);
                continue;
            }
            let (tree, last) = match field.take() {
                Some(field) => (constructed(tree, field), None),
                None => self.shown(tree, anchor),
            };
            anchor = last.or(anchor);
            filled.push(tree);
        }
        (filled.into_iter().collect(), own)
    }

    fn is_done(&self) -> bool {
        self.fillings.as_slice().is_empty()
    }

    /// Returns the next filling if `tree` is the name that replaces pieces, and `None` otherwise.
    fn filling_at(&mut self, tree: &TokenTree) -> Option<Filling> {
        match tree {
            TokenTree::Ident(word) if !self.is_done() && word.to_string() == self.name => {
                self.fillings.next()
            }
            _ => None,
        }
    }

    /// Returns a token tree with its pieces filled in, and the last anchor in it. The token tree is
    /// shown at this anchor. If the token tree contains no anchor, it is shown at `anchor`, the
    /// preceding anchor.
    fn shown(&mut self, mut tree: TokenTree, anchor: Option<Span>) -> (TokenTree, Option<Span>) {
        let (mut span, mut last) = (tree.span(), None);
        if let TokenTree::Group(group) = &tree {
            let before = anchor.filter(|_| group.delimiter() == Delimiter::Parenthesis);
            let (inner, found) = self.fill(group.stream(), before);
            tree = Group::new(group.delimiter(), inner).into();
            last = found;
        }
        if let Some(anchor) = last.or(anchor) {
            span = span.located_at(anchor);
        }
        tree.set_span(span);
        (tree, last)
    }
}

/// Returns `tree`, the token tree after the name of a variant. If `tree` is a group, the value of
/// the field in the group is shown at the field's type, from the token at `first` to the token at
/// `last`.
fn constructed(tree: TokenTree, (first, last): (Span, Span)) -> TokenTree {
    let TokenTree::Group(group) = &tree else {
        return tree;
    };
    let mut place = first;
    let located = |mut tree: TokenTree| {
        tree.set_span(tree.span().located_at(place));
        place = last;
        tree
    };
    let inner = group.stream().into_iter().map(located).collect();
    let mut located = Group::new(group.delimiter(), inner);
    located.set_span(group.span().located_at(first));
    located.into()
}
