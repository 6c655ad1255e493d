//! The generic parameters of a refused enum, as the implementation in `stub` needs them.

use crate::stub::{Trees, is_punct};
use proc_macro::{Delimiter, Group, Ident, Span, TokenStream, TokenTree};
use std::collections::HashMap;
use std::iter::from_fn;

/// The generic parameters of an implementation, the arguments of its type, and its `where` clause.
/// All lifetimes except `'static` are `'s`.
#[derive(Default)]
pub struct Generics {
    pub parameters: TokenStream,
    pub arguments: TokenStream,
    /// The `where` clause of the implementation.
    pub bounds: TokenStream,
}

/// The types that an enum names for its type parameters. The keys are the names of the parameters.
pub type Types = HashMap<String, TokenStream>;

/// Reads the generic parameters and the `where` clause of an enum, and returns the generics of the
/// implementation.
///
/// A type parameter is replaced by the type that the enum names for it. A type parameter without
/// bounds is replaced by `()` if the enum names no type for it, because rustc could not infer the
/// type in `Token::lexer(text)`. Any other type parameter remains, and so do all type parameters of
/// an enum with a `where` clause.
pub fn read_generics(trees: &mut Trees, types: &Types) -> Generics {
    let mut generics = Generics::default();
    let parameters = match is_punct(trees.peek(), '<') {
        true => read_parameters(trees),
        false => Vec::new(),
    };
    let bounds: TokenStream = from_fn(|| trees.next_if(|tree| !is_brace(tree))).collect();
    for parameter in &parameters {
        generics.add(parameter, types, !bounds.is_empty());
    }
    generics.bounds = with_lifetime(bounds);
    generics
}

impl Generics {
    /// Adds the argument for a generic parameter of the enum, and the parameter itself if it
    /// remains. `has_clause` is `true` if the enum has a `where` clause.
    fn add(&mut self, parameter: &[TokenTree], types: &Types, has_clause: bool) {
        let declared = parameter.split(|tree| is_punct(Some(tree), '=')).next();
        let declared = declared.unwrap_or_default();
        let (argument, is_declared) = match declared {
            [TokenTree::Punct(_), ..] => (tokens("'s"), false),
            [TokenTree::Ident(word), name, ..] if word.to_string() == "const" => {
                (name.clone().into(), true)
            }
            [name, bounds @ ..] => match types.get(&name.to_string()) {
                Some(given) if !has_clause => (with_lifetime(given.clone()), false),
                None if !has_clause && bounds.is_empty() => (tokens("()"), false),
                _ => (name.clone().into(), true),
            },
            [] => return,
        };
        if is_declared {
            let declared = declared.iter().cloned().collect();
            self.parameters
                .extend([with_lifetime(declared), tokens(",")]);
        }
        self.arguments.extend([argument, tokens(",")]);
    }
}

fn tokens(text: &str) -> TokenStream {
    text.parse().unwrap_or_default()
}

fn is_brace(tree: &TokenTree) -> bool {
    matches!(tree, TokenTree::Group(group) if group.delimiter() == Delimiter::Brace)
}

/// Reads a list of parameters, including its angle brackets, and returns the tokens of each
/// parameter.
fn read_parameters(trees: &mut Trees) -> Vec<Vec<TokenTree>> {
    let (mut found, mut depth, mut after_minus) = (vec![Vec::new()], 0, false);
    for tree in trees.by_ref() {
        let is = |c| is_punct(Some(&tree), c);
        let is_arrow = after_minus && is('>');
        after_minus = is('-');
        let before = depth;
        depth += i32::from(is('<')) - i32::from(is('>') && !is_arrow);
        match (before, depth) {
            (0, _) => (),
            (_, 0) => break,
            (1, 1) if is(',') => found.push(Vec::new()),
            _ => found
                .last_mut()
                .into_iter()
                .for_each(|last| last.push(tree.clone())),
        }
    }
    found
}

/// Returns `tokens` with all lifetimes except `'static` replaced by `'s`. Lifetimes that are
/// omitted after `&` are added.
pub fn with_lifetime(tokens: TokenStream) -> TokenStream {
    let mut renamed = Vec::new();
    let mut before = ' ';
    for tree in tokens {
        let now = match &tree {
            TokenTree::Punct(punct) => punct.as_char(),
            _ => ' ',
        };
        if before == '&' && now != '\'' {
            renamed.extend("'s".parse::<TokenStream>().unwrap_or_default());
        }
        renamed.push(if before == '\'' {
            lifetime(tree)
        } else {
            inner(tree)
        });
        before = now;
    }
    renamed.into_iter().collect()
}

/// Returns the name of a lifetime after its replacement: `static` unchanged, otherwise `s`.
fn lifetime(tree: TokenTree) -> TokenTree {
    match tree.to_string().as_str() {
        "static" => tree,
        _ => Ident::new("s", Span::call_site()).into(),
    }
}

/// Returns `tree`. If `tree` is a group, the lifetimes in the group are replaced.
fn inner(tree: TokenTree) -> TokenTree {
    match &tree {
        TokenTree::Group(group) => {
            Group::new(group.delimiter(), with_lifetime(group.stream())).into()
        }
        _ => tree,
    }
}
