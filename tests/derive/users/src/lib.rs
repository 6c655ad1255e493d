//! Lexers as users of the crate Logos write them. Each item that a test wants follows from the
//! definition of maximal munch and from the documentation of the crate.

#![cfg(test)]
// The macro warns by a deprecated constant of a pattern that is never found.
#![allow(deprecated)]

mod bytes;
mod callbacks;
mod case;
mod errors;
mod extras;
mod filters;
mod generics;
mod grammars;
mod greedy;
mod lexers;
mod looks;
mod munch;
mod names;
mod priorities;
mod simple;
mod skips;
mod subpatterns;
mod syntax;
mod unicode;

use logos::Span;
use std::fmt::Debug;

/// A lexer whose items are compared, with each interface that its shape has.
#[cfg(feature = "scan")]
trait Lexes<'s>: logos::Scan<'s> {}

#[cfg(feature = "scan")]
impl<'s, T: logos::Scan<'s>> Lexes<'s> for T {}

/// A lexer whose items are compared.
#[cfg(not(feature = "scan"))]
trait Lexes<'s>: logos::Logos<'s> {}

#[cfg(not(feature = "scan"))]
impl<'s, T: logos::Logos<'s>> Lexes<'s> for T {}

/// Asserts that a scan of the input finds these items.
#[cfg(feature = "scan")]
fn compare_scan<'s, T>(source: &'s T::Source, items: &[(Result<T, T::Error>, Span)])
where
    T: Lexes<'s> + Debug + PartialEq,
    T::Extras: Default,
{
    assert_eq!(T::scan(source).collect::<Vec<_>>(), items, "by `scan`");
    let mut folded = Vec::new();
    T::scan(source).for_each(|item| folded.push(item));
    assert_eq!(folded, items, "by `for_each`");
}

#[cfg(not(feature = "scan"))]
fn compare_scan<'s, T: Lexes<'s>>(_: &'s T::Source, _: &[(Result<T, T::Error>, Span)]) {}

/// Returns the items of an input, with their spans.
fn found<'s, T>(source: &'s T::Source) -> Vec<(Result<T, T::Error>, Span)>
where
    T: Lexes<'s> + Debug + PartialEq,
    T::Extras: Default,
{
    let items: Vec<_> = T::lexer(source).spanned().collect();
    compare_scan::<T>(source, &items);
    items
}

/// Returns the items of a text, with their slices.
fn texts<'s, T>(source: &'s str) -> Vec<(Result<T, T::Error>, &'s str)>
where
    T: Lexes<'s, Source = str> + Debug + PartialEq,
    T::Extras: Default,
{
    let items = found::<T>(source).into_iter();
    items.map(|(item, span)| (item, &source[span])).collect()
}

/// Returns the items of an input.
fn items<'s, T>(source: &'s T::Source) -> Vec<Result<T, T::Error>>
where
    T: Lexes<'s> + Debug + PartialEq,
    T::Extras: Default,
{
    found::<T>(source).into_iter().map(|it| it.0).collect()
}
