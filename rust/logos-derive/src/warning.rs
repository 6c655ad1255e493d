//! Functions that report warnings as uses of a deprecated constant, because stable Rust has no
//! warnings from macros. Used by the macro.

use crate::answer::Diagnostic;
use crate::fault::text;
use crate::question::Question;
use proc_macro::{Delimiter, Group, Ident, Literal, Span, TokenStream, TokenTree};

/// Returns items that make the compiler warn at the first token of the warning's span, or at the
/// name of the enum if the span has no token. The compiler would not warn at the derive attribute,
/// because it is not one of the user's tokens.
///
/// Lints that the enum `item` allows are also allowed for its warnings.
pub fn warning(found: &Diagnostic, question: &Question, item: &TokenStream) -> TokenStream {
    let note = Literal::string(&text(found, question));
    let place = question.place(&found.span).or_else(|| question.name());
    let span = place.map_or(Span::call_site(), |place| place.first);
    let constant = format!(
        "#[deprecated(note = {note})] #[allow(non_upper_case_globals)] const logos: () = ();"
    );
    let mut inner: TokenStream = constant.parse().unwrap_or_default();
    inner.extend("let _ =".parse::<TokenStream>().unwrap_or_default());
    inner.extend([TokenTree::from(Ident::new("logos", span))]);
    inner.extend(";".parse::<TokenStream>().unwrap_or_default());
    let mut tokens = allowed(item.clone());
    tokens.extend("const _: () =".parse::<TokenStream>().unwrap_or_default());
    tokens.extend([TokenTree::from(Group::new(Delimiter::Brace, inner))]);
    tokens.extend(";".parse::<TokenStream>().unwrap_or_default());
    tokens
}

/// Returns the attributes `#[allow(..)]` at the beginning of `item`, up to its first token that
/// belongs to no attribute.
fn allowed(item: TokenStream) -> TokenStream {
    let mut found = TokenStream::new();
    let mut trees = item.into_iter();
    while let (Some(TokenTree::Punct(hash)), Some(TokenTree::Group(attribute))) =
        (trees.next(), trees.next())
    {
        let name = attribute.stream().into_iter().next();
        if hash.as_char() == '#'
            && matches!(name, Some(TokenTree::Ident(name)) if name.to_string() == "allow")
        {
            found.extend([TokenTree::from(hash), attribute.into()]);
        }
    }
    found
}
