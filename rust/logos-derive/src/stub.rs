//! The implementation of `Logos` for a refused enum. The implementation is never called. Because it
//! exists, uses of the enum as a lexer cause no errors in addition to the faults.

use crate::generics::{Generics, Types, read_generics, with_lifetime};
use crate::type_syntax::{is_path, is_type};
use proc_macro::{Delimiter, Group, TokenStream, TokenTree};
use std::collections::HashMap;
use std::iter::Peekable;

/// The name, the generic parameters and the options of an enum.
struct Head {
    name: TokenTree,
    generics: Generics,
    options: Options,
}

/// The options of `#[logos(..)]` that the implementation needs.
struct Options {
    path: TokenStream,
    source: TokenStream,
    extras: TokenStream,
    error: TokenStream,
    /// The types for the type parameters. The keys are the names of the parameters.
    types: Types,
}

/// The remaining token trees of an item.
pub type Trees = Peekable<proc_macro::token_stream::IntoIter>;

/// The template of the implementation. Identifiers that begin with `logos_` are replaced.
const TEXT: &str = "\
impl<'s, logos_parameters> logos_path::Logos<'s> for logos_name<logos_arguments> logos_where {
    type Error = logos_error;
    type Extras = logos_extras;
    type Source = logos_source;
    fn lex(_: &mut logos_path::Lexer<'s, Self>)
        -> ::core::option::Option<::core::result::Result<Self, logos_error>> { loop {} }
}
impl<'s, logos_parameters> logos_path::internal::Tables<'s> for logos_name<logos_arguments>
logos_where {
    const DATA: logos_path::internal::_Data = logos_path::internal::_Data::NOTHING;
    type Unpacked = logos_path::internal::_Unpacked<0, 0>;
    const UNPACKED: &'static Self::Unpacked = &logos_path::internal::_Unpacked::NOTHING;
    const ROWS: &'static [::core::primitive::u32] = &[];
    const LASTS: &'static [::core::primitive::u32] = &[];
    const MASKS: &'static [[[::core::primitive::u8; 8]; 256]] = &[];
    const RANGES: &'static [logos_path::internal::_Ranges] = &[];
    const FOLDED: &'static [::core::primitive::u32] = &[];
    fn bytes(_: &'s logos_source) -> &'s [::core::primitive::u8] { &[] }
    fn plain(_: ::core::primitive::usize) -> ::core::option::Option<Self> { loop {} }
    fn act(_: &mut logos_path::Lexer<'s, Self>, _: ::core::primitive::usize)
        -> logos_path::internal::CallbackResult<'s, Self> { loop {} }
    fn error(_: &mut logos_path::Lexer<'s, Self>) -> logos_error { loop {} }
}";

/// Returns the implementation for `item`, or `None` if `item` is not an enum.
pub fn stub(item: TokenStream) -> Option<TokenStream> {
    let Head {
        name,
        generics,
        options,
    } = head(item)?;
    let words = [
        ("logos_path", options.path),
        ("logos_name", name.into()),
        ("logos_error", with_lifetime(options.error)),
        ("logos_extras", with_lifetime(options.extras)),
        ("logos_source", options.source),
        ("logos_parameters", generics.parameters),
        ("logos_arguments", generics.arguments),
        ("logos_where", generics.bounds),
    ];
    Some(replace(TEXT.parse().ok()?, &HashMap::from(words)))
}

/// Returns `text` with each identifier that is a key of `words` replaced by its tokens.
fn replace(text: TokenStream, words: &HashMap<&str, TokenStream>) -> TokenStream {
    let replaced = |tree| match &tree {
        TokenTree::Ident(word) => match words.get(word.to_string().as_str()) {
            Some(tokens) => tokens.clone(),
            None => tree.into(),
        },
        TokenTree::Group(group) => {
            let inner = replace(group.stream(), words);
            TokenTree::from(Group::new(group.delimiter(), inner)).into()
        }
        _ => TokenStream::from(tree),
    };
    text.into_iter().map(replaced).collect()
}

/// Returns the name, the generic parameters and the options of an enum, or `None` if the item is
/// not an enum.
fn head(item: TokenStream) -> Option<Head> {
    let mut trees = item.into_iter().peekable();
    let tokens = |text: &str| text.parse::<TokenStream>().ok();
    let mut options = Options {
        path: tokens("::logos")?,
        source: tokens("::core::primitive::str")?,
        extras: tokens("()")?,
        error: tokens("()")?,
        types: Types::new(),
    };
    loop {
        match trees.next()? {
            TokenTree::Punct(hash) if hash.as_char() == '#' => attribute(&mut trees, &mut options)?,
            TokenTree::Ident(word) if word.to_string() == "enum" => break,
            _ => (),
        }
    }
    let name = trees.next()?;
    let generics = read_generics(&mut trees, &options.types);
    Some(Head {
        name,
        generics,
        options,
    })
}

pub fn is_punct(tree: Option<&TokenTree>, c: char) -> bool {
    matches!(tree, Some(TokenTree::Punct(punct)) if punct.as_char() == c)
}

/// Reads an attribute after its `#`. If the attribute is `#[logos(..)]`, sets the options that the
/// attribute contains. Returns `None` if no attribute follows.
fn attribute(trees: &mut Trees, options: &mut Options) -> Option<()> {
    let TokenTree::Group(attribute) = trees.next()? else {
        return None;
    };
    let mut inner = attribute.stream().into_iter();
    if inner.next()?.to_string() != "logos" {
        return Some(());
    }
    if let Some(TokenTree::Group(group)) = inner.next() {
        let trees: Vec<TokenTree> = group.stream().into_iter().collect();
        trees
            .split(|tree| is_punct(Some(tree), ','))
            .for_each(|option| take(option, options));
    }
    Some(())
}

/// Sets an option according to `name = value`, `error(type, ..)` or `type name = value`. Other
/// options and faulty values are ignored.
fn take(option: &[TokenTree], options: &mut Options) {
    let [TokenTree::Ident(name), rest @ ..] = option else {
        return;
    };
    let inner: Vec<TokenTree>;
    let value = match rest {
        [equals, value @ ..] if is_punct(Some(equals), '=') => value,
        [TokenTree::Ident(parameter), equals, value @ ..] if is_punct(Some(equals), '=') => {
            return take_type(&parameter.to_string(), value, options);
        }
        [TokenTree::Group(group)] if group.delimiter() == Delimiter::Parenthesis => {
            inner = group
                .stream()
                .into_iter()
                .take_while(|tree| !is_punct(Some(tree), ','))
                .collect();
            &inner
        }
        _ => return,
    };
    let text: TokenStream = value.iter().cloned().collect();
    match name.to_string().as_str() {
        "crate" if is_path(value) => options.path = text,
        "extras" if is_type(value) => options.extras = text,
        "error" if is_type(value) => options.error = text,
        "utf8" if text.to_string() == "false" => {
            options.source = "[::core::primitive::u8]".parse().unwrap_or_default()
        }
        _ => (),
    }
}

/// Sets the type for the type parameter named `parameter` if `value` is a type.
fn take_type(parameter: &str, value: &[TokenTree], options: &mut Options) {
    if is_type(value) {
        let tokens = value.iter().cloned().collect();
        options.types.insert(parameter.into(), tokens);
    }
}
