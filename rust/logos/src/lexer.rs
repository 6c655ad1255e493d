//! Lexers, which return the tokens of an input. Used by programs and by generated code.

#[cfg(feature = "std")]
use crate::ahead::Ahead;
#[cfg(not(feature = "std"))]
use crate::alone::Ahead;
use crate::scan::{Scan, Scanner};
use crate::{Logos, Source};
use core::fmt;
use core::ops::{Deref, DerefMut, Range};

/// A range of byte offsets in an input. It excludes the offset at its end.
pub type Span = Range<usize>;

/// The setting that determines where a lexer looks ahead.
#[derive(Clone, Copy, Debug, PartialEq, Eq)]
pub enum Way {
    /// The lexer looks ahead where that saves time.
    ByRule,
    /// The lexer does not look ahead.
    Never,
    /// The lexer looks ahead everywhere.
    Always,
    /// The lexer looks ahead everywhere, and returns only the items that do not depend on the bytes
    /// after the input.
    Part,
}

/// The value of `start` for a token that was found ahead. The start of such a token is computed
/// only when it is read.
#[cfg(feature = "std")]
const AHEAD: usize = usize::MAX;

/// A lexer on an input. As an iterator it yields the tokens, and an error for each unmatched part
/// of the input.
pub struct Lexer<'source, Token: Logos<'source>> {
    source: &'source Token::Source,
    start: usize,
    end: usize,
    pub(crate) ahead: Ahead,
    /// The state that callbacks can read and change.
    pub extras: Token::Extras,
}

impl<'source, Token: Logos<'source>> Lexer<'source, Token> {
    /// Returns a lexer at the start of `source`, with default extras.
    pub fn new(source: &'source Token::Source) -> Self
    where
        Token::Extras: Default,
    {
        Self::with_extras(source, Token::Extras::default())
    }

    /// Returns a lexer at the start of `source`, with `extras`.
    pub fn with_extras(source: &'source Token::Source, extras: Token::Extras) -> Self {
        Lexer {
            source,
            start: 0,
            end: 0,
            ahead: Ahead::new(0, source.len()),
            extras,
        }
    }

    /// Returns the whole input.
    pub fn source(&self) -> &'source Token::Source {
        self.source
    }

    /// Returns the span of the last token or error, or `0..0` before the first one.
    #[inline]
    pub fn span(&self) -> Span {
        self.start()..self.end
    }

    /// Returns the part of the input that the last token or error spans.
    pub fn slice(&self) -> <Token::Source as Source>::Slice<'source> {
        self.part(self.span())
    }

    /// Returns the part of the input after the last token or error.
    pub fn remainder(&self) -> <Token::Source as Source>::Slice<'source> {
        self.part(self.end..self.source.len())
    }

    /// Makes the last token or error `n` bytes longer.
    ///
    /// # Panics
    ///
    /// Panics if the token would end after the end of the input, or inside a character. The lexer
    /// then remains unchanged.
    pub fn bump(&mut self, n: usize) {
        let end = self.end.checked_add(n);
        let is_end = |end: &usize| *end <= self.source.len() && self.source.is_boundary(*end);
        let end = end.filter(is_end).expect("Invalid Lexer bump");
        (self.start, self.end) = (self.start(), end);
        self.ahead.forget();
    }

    /// Returns a lexer for another enum at the same offset of the same input. Converts the extras
    /// of this lexer.
    pub fn morph<Other>(self) -> Lexer<'source, Other>
    where
        Other: Logos<'source, Source = Token::Source>,
        Token::Extras: Into<Other::Extras>,
    {
        Lexer {
            source: self.source,
            start: self.start(),
            end: self.end,
            ahead: self.ahead.anew(self.end, self.source.len()),
            extras: self.extras.into(),
        }
    }

    /// Returns an iterator over the tokens and errors that follow, with their spans.
    pub fn spanned(self) -> SpannedIter<'source, Token> {
        SpannedIter { lexer: self }
    }

    /// Returns an iterator over the tokens and errors that follow, with their spans. It yields the
    /// same items as [`Lexer::spanned`].
    pub fn scan(self) -> Scanner<'source, Token>
    where
        Token: Scan<'source>,
    {
        Scanner::new(self)
    }

    /// Returns an iterator over the tokens and errors that follow, with their spans, for an input
    /// that is a part of a longer input. The iterator yields only the items that do not depend on
    /// the bytes after this part. After the last item, [`Lexer::remainder`] returns the text with
    /// which the next part must begin.
    ///
    /// Callbacks must read only their match. Any other text that a callback reads is the text of
    /// this part instead of the longer input.
    pub fn scan_part(mut self) -> Scanner<'source, Token>
    where
        Token: Scan<'source>,
    {
        self.set_way(Way::Part);
        Scanner::new(self)
    }

    /// Sets where the lexer looks ahead. Forgets the items that the lexer has found ahead.
    pub(crate) fn set_way(&mut self, way: Way) {
        self.start = self.start();
        self.ahead = match way {
            Way::ByRule => Ahead::new(self.end, self.source.len()),
            Way::Never => Ahead::NONE,
            Way::Always | Way::Part => Ahead::by_way(way),
        };
    }

    /// Sets the start of the next token to the end of the last one.
    pub(crate) fn begin(&mut self) {
        self.start = self.end;
    }

    /// Returns the byte offset at which the last token begins.
    #[inline(always)]
    fn start(&self) -> usize {
        #[cfg(feature = "std")]
        if self.start == AHEAD {
            return self.ahead.start_of(self.end);
        }
        self.start
    }

    /// Returns the byte offset at which the last token begins. The token must not have been found
    /// ahead.
    #[inline(always)]
    pub(crate) fn begun(&self) -> usize {
        self.start
    }

    pub(crate) fn end(&self) -> usize {
        self.end
    }

    #[cfg(feature = "std")]
    pub(crate) fn set_span(&mut self, span: Span) {
        (self.start, self.end) = (span.start, span.end);
    }

    /// Sets the span to the span of a token that was found ahead. The token ends at the byte offset
    /// `end`.
    #[cfg(feature = "std")]
    #[inline(always)]
    pub(crate) fn set_end_ahead(&mut self, end: usize) {
        (self.start, self.end) = (AHEAD, end);
    }

    pub(crate) fn set_end(&mut self, end: usize) {
        self.end = end;
    }

    fn part(&self, range: Span) -> <Token::Source as Source>::Slice<'source> {
        let source: &'source Token::Source = self.source;
        source
            .slice(range)
            .expect("tokens end where a part of the input can")
    }
}

impl<'source, Token: Logos<'source>> Iterator for Lexer<'source, Token> {
    type Item = Result<Token, Token::Error>;

    #[inline]
    fn next(&mut self) -> Option<Self::Item> {
        self.begin();
        Token::lex(self)
    }
}

impl<'source, Token: Logos<'source>> Clone for Lexer<'source, Token>
where
    Token::Extras: Clone,
{
    fn clone(&self) -> Self {
        Lexer {
            source: self.source,
            start: self.start(),
            end: self.end,
            ahead: self.ahead.anew(self.end, self.source.len()),
            extras: self.extras.clone(),
        }
    }
}

impl<'source, Token: Logos<'source>> fmt::Debug for Lexer<'source, Token>
where
    Token::Source: fmt::Debug,
    Token::Extras: fmt::Debug,
{
    fn fmt(&self, f: &mut fmt::Formatter<'_>) -> fmt::Result {
        let source: &dyn fmt::Debug = &self.source;
        let extras: &dyn fmt::Debug = &self.extras;
        f.debug_map()
            .entries([("source", source), ("extras", extras)])
            .finish()
    }
}

/// An iterator over the tokens and errors of a lexer, with their spans.
pub struct SpannedIter<'source, Token: Logos<'source>> {
    lexer: Lexer<'source, Token>,
}

impl<'source, Token: Logos<'source>> Iterator for SpannedIter<'source, Token> {
    type Item = (Result<Token, Token::Error>, Span);

    #[inline]
    fn next(&mut self) -> Option<Self::Item> {
        let item = self.lexer.next()?;
        Some((item, self.lexer.span()))
    }
}

impl<'source, Token: Logos<'source>> Clone for SpannedIter<'source, Token>
where
    Token::Extras: Clone,
{
    fn clone(&self) -> Self {
        SpannedIter {
            lexer: self.lexer.clone(),
        }
    }
}

impl<'source, Token: Logos<'source>> fmt::Debug for SpannedIter<'source, Token>
where
    Token::Source: fmt::Debug,
    Token::Extras: fmt::Debug,
{
    fn fmt(&self, f: &mut fmt::Formatter<'_>) -> fmt::Result {
        f.debug_struct("SpannedIter")
            .field("lexer", &self.lexer)
            .finish()
    }
}

impl<'source, Token: Logos<'source>> Deref for SpannedIter<'source, Token> {
    type Target = Lexer<'source, Token>;

    fn deref(&self) -> &Self::Target {
        &self.lexer
    }
}

impl<'source, Token: Logos<'source>> DerefMut for SpannedIter<'source, Token> {
    fn deref_mut(&mut self) -> &mut Self::Target {
        &mut self.lexer
    }
}
