//! The interface between generated code and the runtime. Programs do not use it directly.

pub use crate::data::Data;
pub use crate::data::{Data as _Data, Unpacked as _Unpacked};
use crate::layout::Made;
pub use crate::loops::Ranges as _Ranges;
use crate::loops::{Mask, Ranges};
use crate::run::Run;
use crate::source::Chunk;
use crate::{Filter, FilterResult, Lexer, Logos, Skip, Source, Way};
pub use Tables as _Tables;

/// The methods of a lexer that generated code calls.
pub trait LexerInternal<'source> {
    /// Returns the chunk that begins at the byte offset `offset`, or `None` if the chunk would
    /// extend past the end of the input.
    fn read<C: Chunk<'source>>(&self, offset: usize) -> Option<C>;

    /// Returns the byte offset at which the token begins.
    fn offset(&self) -> usize;

    /// Sets the end of the token to the byte offset `offset`.
    fn end(&mut self, offset: usize);

    /// Sets the end of the token to the first boundary at or after the byte offset `offset`.
    fn end_to_boundary(&mut self, offset: usize);

    /// Skips the token. The next token begins at the end of the skipped token.
    fn trivia(&mut self);
}

impl<'source, Token: Logos<'source>> LexerInternal<'source> for Lexer<'source, Token> {
    #[inline]
    fn read<C: Chunk<'source>>(&self, offset: usize) -> Option<C> {
        self.source().read(offset)
    }

    #[inline]
    fn offset(&self) -> usize {
        self.begun()
    }

    #[inline]
    fn end(&mut self, offset: usize) {
        self.set_end(offset);
    }

    #[inline]
    fn end_to_boundary(&mut self, offset: usize) {
        let end = self.source().find_boundary(offset);
        self.set_end(end);
    }

    #[inline]
    fn trivia(&mut self) {
        self.begin();
    }
}

/// An enum with a table-driven lexer. The generated code implements this trait with the tables, and
/// with functions for the leaves.
pub trait Tables<'source>: Logos<'source> + Made<'source> {
    /// The tables in packed form.
    const DATA: Data;

    /// The type of the unpacked tables.
    type Unpacked: 'static;
    /// The unpacked tables. The constants below are computed from the unpacked tables.
    const UNPACKED: &'static Self::Unpacked;

    /// The rows that `lex` reads if rows have an entry for each byte. See [`_Unpacked::rows`].
    const ROWS: &'static [u32];

    /// The last match in each state. See [`_Unpacked::lasts`].
    const LASTS: &'static [u32];

    /// The masks of the fast loops.
    const MASKS: &'static [Mask];
    /// The ranges of the bytes that each fast loop consumes.
    const RANGES: &'static [Ranges];

    /// The folded tables that walks read if rows have an entry for each byte. See
    /// [`_Unpacked::folded`].
    const FOLDED: &'static [u32];

    /// Returns the bytes of an input.
    fn bytes(source: &'source Self::Source) -> &'source [u8];

    /// Returns the token of the leaf with the number `leaf`, or `None` if [`Tables::act`]
    /// determines the outcome of the leaf's matches.
    fn plain(leaf: usize) -> Option<Self>;

    /// Returns the outcome of the lexer's current match, which is a match of the leaf with the
    /// number `leaf`. Calls the callback of the leaf if the leaf has one. Called if
    /// [`Tables::plain`] returns `None` for the leaf.
    fn act(lexer: &mut Lexer<'source, Self>, leaf: usize) -> CallbackResult<'source, Self>;

    /// Returns the error for unmatched input.
    fn error(lexer: &mut Lexer<'source, Self>) -> Self::Error;

    /// Returns the next token or error according to these tables, or `None` at the end of the
    /// input.
    #[inline(always)]
    fn run(lexer: &mut Lexer<'source, Self>) -> Option<Result<Self, Self::Error>> {
        Self::lex_on(lexer)
    }
}

/// Sets `lexer` to look ahead everywhere if `everywhere` is `true`, and nowhere otherwise. Returns
/// the lexer. Tests compare the items that the lexer finds with each setting.
pub fn looking<'source, Token: Tables<'source>>(
    mut lexer: Lexer<'source, Token>,
    everywhere: bool,
) -> Lexer<'source, Token> {
    lexer.set_way(if everywhere { Way::Always } else { Way::Never });
    lexer
}

/// The outcome of a match: a token, an error, or no item.
pub enum CallbackResult<'source, Token: Logos<'source>> {
    Emit(Token),
    Error(Token::Error),
    DefaultError,
    Skip,
}

/// The outcome of a match of a leaf that is skipped: no item, or an error.
pub enum SkipResult<'source, Token: Logos<'source>> {
    Skip,
    Error(Token::Error),
}

impl<'source, Token: Logos<'source>> From<SkipResult<'source, Token>>
    for CallbackResult<'source, Token>
{
    fn from(result: SkipResult<'source, Token>) -> Self {
        match result {
            SkipResult::Skip => CallbackResult::Skip,
            SkipResult::Error(error) => CallbackResult::Error(error),
        }
    }
}

/// A type that a callback can return if the variant of the callback has a value of the type
/// `Value`.
pub trait CallbackRetVal<'source, Value, Token: Logos<'source>> {
    /// Returns the outcome of the match. If the outcome is a token, `constructor` makes the token
    /// from its value.
    fn construct<Constructor: FnOnce(Value) -> Token>(
        self,
        constructor: Constructor,
    ) -> CallbackResult<'source, Token>;
}

impl<'source, Value, Token: Logos<'source>> CallbackRetVal<'source, Value, Token> for Value {
    #[inline]
    fn construct<C: FnOnce(Value) -> Token>(
        self,
        constructor: C,
    ) -> CallbackResult<'source, Token> {
        CallbackResult::Emit(constructor(self))
    }
}

impl<'source, Token: Logos<'source>> CallbackRetVal<'source, (), Token> for bool {
    #[inline]
    fn construct<C: FnOnce(()) -> Token>(self, constructor: C) -> CallbackResult<'source, Token> {
        self.then_some(()).construct(constructor)
    }
}

impl<'source, Value, Token: Logos<'source>> CallbackRetVal<'source, Value, Token>
    for Option<Value>
{
    #[inline]
    fn construct<C: FnOnce(Value) -> Token>(
        self,
        constructor: C,
    ) -> CallbackResult<'source, Token> {
        match self {
            Some(value) => CallbackResult::Emit(constructor(value)),
            None => CallbackResult::DefaultError,
        }
    }
}

impl<'source, Value, Error, Token> CallbackRetVal<'source, Value, Token> for Result<Value, Error>
where
    Error: Into<Token::Error>,
    Token: Logos<'source>,
{
    #[inline]
    fn construct<C: FnOnce(Value) -> Token>(
        self,
        constructor: C,
    ) -> CallbackResult<'source, Token> {
        match self {
            Ok(value) => CallbackResult::Emit(constructor(value)),
            Err(error) => CallbackResult::Error(error.into()),
        }
    }
}

impl<'source, Token: Logos<'source>> CallbackRetVal<'source, (), Token> for Skip {
    #[inline]
    fn construct<C: FnOnce(()) -> Token>(self, _constructor: C) -> CallbackResult<'source, Token> {
        CallbackResult::Skip
    }
}

impl<'source, Error, Token> CallbackRetVal<'source, (), Token> for Result<Skip, Error>
where
    Error: Into<Token::Error>,
    Token: Logos<'source>,
{
    #[inline]
    fn construct<C: FnOnce(()) -> Token>(self, _constructor: C) -> CallbackResult<'source, Token> {
        match self {
            Ok(Skip) => CallbackResult::Skip,
            Err(error) => CallbackResult::Error(error.into()),
        }
    }
}

impl<'source, Value, Token: Logos<'source>> CallbackRetVal<'source, Value, Token>
    for Filter<Value>
{
    #[inline]
    fn construct<C: FnOnce(Value) -> Token>(
        self,
        constructor: C,
    ) -> CallbackResult<'source, Token> {
        match self {
            Filter::Emit(value) => CallbackResult::Emit(constructor(value)),
            Filter::Skip => CallbackResult::Skip,
        }
    }
}

impl<'source, Value, Error, Token> CallbackRetVal<'source, Value, Token>
    for FilterResult<Value, Error>
where
    Error: Into<Token::Error>,
    Token: Logos<'source>,
{
    #[inline]
    fn construct<C: FnOnce(Value) -> Token>(
        self,
        constructor: C,
    ) -> CallbackResult<'source, Token> {
        match self {
            FilterResult::Emit(value) => CallbackResult::Emit(constructor(value)),
            FilterResult::Skip => CallbackResult::Skip,
            FilterResult::Error(error) => CallbackResult::Error(error.into()),
        }
    }
}

/// A type that the callback of a skip can return.
pub trait SkipRetVal<'source, Token: Logos<'source>> {
    /// Returns the outcome of the match.
    fn construct(self) -> SkipResult<'source, Token>;
}

impl<'source, Token: Logos<'source>> SkipRetVal<'source, Token> for () {
    #[inline]
    fn construct(self) -> SkipResult<'source, Token> {
        SkipResult::Skip
    }
}

impl<'source, Token: Logos<'source>> SkipRetVal<'source, Token> for Skip {
    #[inline]
    fn construct(self) -> SkipResult<'source, Token> {
        SkipResult::Skip
    }
}

impl<'source, Error, Token> SkipRetVal<'source, Token> for Result<(), Error>
where
    Error: Into<Token::Error>,
    Token: Logos<'source>,
{
    #[inline]
    fn construct(self) -> SkipResult<'source, Token> {
        match self {
            Ok(()) => SkipResult::Skip,
            Err(error) => SkipResult::Error(error.into()),
        }
    }
}

impl<'source, Error, Token> SkipRetVal<'source, Token> for Result<Skip, Error>
where
    Error: Into<Token::Error>,
    Token: Logos<'source>,
{
    #[inline]
    fn construct(self) -> SkipResult<'source, Token> {
        SkipRetVal::construct(self.map(|Skip| ()))
    }
}
