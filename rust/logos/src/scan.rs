//! The trait [`Scan`] of enums with table-driven lexers, and its iterator over tokens with their
//! spans.

use crate::internal::Tables;
use crate::{Lexer, Span, Way};
use core::fmt;
use core::ops::{Deref, DerefMut};

/// An enum with a table-driven lexer.
///
/// Each enum for which the derive macro or `logos_cli` prints a lexer in the shape `tables`
/// implements this trait together with [`Logos`](crate::Logos).
#[diagnostic::on_unimplemented(
    message = "`{Self}` has no lexer that scans",
    label = "its lexer is no table",
    note = "`scan` is there for lexers in the shape `tables`, which is the default one"
)]
pub trait Scan<'source>: Tables<'source> {
    /// Returns an iterator over the tokens and errors of `source`, with their spans. It yields the
    /// same items as `Token::lexer(source).spanned()`, and is equally fast.
    fn scan(source: &'source Self::Source) -> Scanner<'source, Self>
    where
        Self::Extras: Default,
    {
        Lexer::new(source).scan()
    }

    /// Returns an iterator over the tokens and errors of `source`, the first part of an input, with
    /// their spans. The iterator yields only the items that do not depend on the bytes after
    /// `source`. See [`Lexer::scan_part`].
    fn scan_part(source: &'source Self::Source) -> Scanner<'source, Self>
    where
        Self::Extras: Default,
    {
        Lexer::new(source).scan_part()
    }
}

impl<'source, T: Tables<'source>> Scan<'source> for T {}

/// An iterator over the tokens and errors of a lexer, with their spans. It dereferences to its
/// lexer.
pub struct Scanner<'source, Token: Scan<'source>> {
    lexer: Lexer<'source, Token>,
}

impl<'source, Token: Scan<'source>> Scanner<'source, Token> {
    pub(crate) fn new(lexer: Lexer<'source, Token>) -> Self {
        Scanner { lexer }
    }

    /// Returns the lexer, positioned after the last token or error.
    pub fn into_lexer(self) -> Lexer<'source, Token> {
        let mut lexer = self.lexer;
        lexer.set_way(Way::ByRule);
        lexer
    }
}

impl<'source, Token: Scan<'source>> Iterator for Scanner<'source, Token> {
    type Item = (Result<Token, Token::Error>, Span);

    #[inline]
    fn next(&mut self) -> Option<Self::Item> {
        let item = self.lexer.next()?;
        Some((item, self.lexer.span()))
    }
}

impl<'source, Token: Scan<'source>> Clone for Scanner<'source, Token>
where
    Token::Extras: Clone,
{
    fn clone(&self) -> Self {
        Scanner {
            lexer: self.lexer.clone(),
        }
    }
}

impl<'source, Token: Scan<'source>> fmt::Debug for Scanner<'source, Token>
where
    Token::Source: fmt::Debug,
    Token::Extras: fmt::Debug,
{
    fn fmt(&self, f: &mut fmt::Formatter<'_>) -> fmt::Result {
        f.debug_struct("Scanner")
            .field("lexer", &self.lexer)
            .finish()
    }
}

impl<'source, Token: Scan<'source>> Deref for Scanner<'source, Token> {
    type Target = Lexer<'source, Token>;

    fn deref(&self) -> &Self::Target {
        &self.lexer
    }
}

impl<'source, Token: Scan<'source>> DerefMut for Scanner<'source, Token> {
    fn deref_mut(&mut self) -> &mut Self::Target {
        &mut self.lexer
    }
}
