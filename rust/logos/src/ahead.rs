//! The items that a lexer has found ahead of its own offset: the tokens of one word of a chunk, or
//! no tokens.
//!
//! The loop of `run` takes these tokens. The function that the loop calls out of line takes and
//! returns a whole `Ahead` by value, so that the compiler can keep the lexer in registers in a loop
//! over tokens.

use crate::folded::Folded;
use crate::internal::Tables;
use crate::walk::{new_room, Room};
use crate::{Span, Way};

/// The number of bytes that a new lexer, or a new clone of a lexer, lexes before it looks ahead. If
/// the caller takes only the tokens in these bytes, the lexer walks over no chunk.
const HESITATES: usize = 512;
/// The minimum number of remaining bytes with which a lexer begins to look ahead.
const BEGINS: usize = 7168;
/// The minimum number of remaining bytes with which a lexer that looks ahead continues to do so.
const FEWEST: usize = 2048;

/// The items that a lexer has found ahead of its own offset. The value is small, so that the
/// compiler can keep it in registers.
pub(crate) struct Ahead {
    /// The bits of the tokens in the walk's word that have not been taken. The bit of a byte is set
    /// if such a token ends before the byte.
    tokens: u64,
    /// The byte offset up to which match attempts find the items.
    plain_to: usize,
    /// The walk over the input, or `None` if the lexer has not looked ahead yet.
    room: Option<Room>,
}

/// The next step of a lexer that has taken all tokens of its word.
pub(crate) enum Next {
    /// The next items are the tokens of the word.
    Word,
    /// Match attempts find the next items. The first attempt begins at this byte offset.
    Attempts(usize),
    /// The next item has this span. It is a match of the leaf with this number, or an error if no
    /// leaf has this number.
    Match(usize, Span),
    /// The match attempt that begins at this byte offset must be repeated.
    Repeat(usize),
    /// The lexer has returned all items of its part of an input. The next part has to begin at this
    /// byte offset.
    End(usize),
}

impl Ahead {
    /// The state of a lexer that never looks ahead.
    pub(crate) const NONE: Ahead = Ahead {
        tokens: 0,
        plain_to: usize::MAX,
        room: None,
    };

    /// Returns the state of a new lexer at the byte offset `from` of an input of `len` bytes.
    #[inline(always)]
    pub(crate) fn new(from: usize, len: usize) -> Ahead {
        let is_short = len.wrapping_sub(from) < BEGINS + HESITATES;
        let plain_to = if is_short {
            usize::MAX
        } else {
            from + HESITATES
        };
        Ahead {
            plain_to,
            ..Ahead::NONE
        }
    }

    /// Returns the state of a new lexer at the byte offset `from` of an input of `len` bytes. The
    /// new lexer looks ahead in the same way as the lexer with the state `self`.
    #[inline(always)]
    pub(crate) fn anew(&self, from: usize, len: usize) -> Ahead {
        match &self.room {
            Some(room) if room.way != Way::ByRule => Ahead::by_way(room.way),
            None if self.plain_to == usize::MAX => Ahead::NONE,
            _ => Ahead::new(from, len),
        }
    }

    /// Returns the state of a lexer that looks ahead according to `way` from its first item on.
    #[cold]
    pub(crate) fn by_way(way: Way) -> Ahead {
        Ahead {
            plain_to: 0,
            room: Some(new_room(way)),
            ..Ahead::NONE
        }
    }

    /// Forgets the tokens of the word, and records that the lexer was moved.
    pub(crate) fn forget(&mut self) {
        self.tokens = 0;
        if let Some(room) = &mut self.room {
            room.is_moved = true;
        }
    }

    /// Returns whether a match attempt finds the item that begins at the byte offset `end`.
    #[inline(always)]
    pub(crate) fn is_plain(&self, end: usize) -> bool {
        end < self.plain_to
    }

    /// Returns the start of the match that ends at the byte offset `end` of the input. The match
    /// must end in the current word.
    #[inline(always)]
    pub(crate) fn start_of(&self, end: usize) -> usize {
        let room = self.room.as_ref();
        room.map_or(end, |room| room.word.start_of(end))
    }

    /// Returns whether the word has a token that has not been taken.
    #[inline(always)]
    pub(crate) fn has_tokens(&self) -> bool {
        self.tokens != 0
    }

    /// Returns the leaf and the end of the next token of the word, or `None` if no token is left.
    #[inline(always)]
    pub(crate) fn token(&self) -> Option<(usize, usize)> {
        if self.tokens == 0 {
            return None;
        }
        self.room.as_ref()?.token(self.tokens)
    }

    /// Skips the next token of the word.
    #[inline(always)]
    pub(crate) fn pass(&mut self) {
        self.tokens &= self.tokens.wrapping_sub(1);
    }

    /// Skips the tokens of the word that end at or before the byte offset `end`. This offset is the
    /// new end of an item that was made longer. If no match of the word ends at `end`, forgets all
    /// tokens of the word.
    #[inline(always)]
    pub(crate) fn pass_to(&mut self, end: usize) {
        match &self.room {
            Some(room) if room.word.ends_at(end) => {
                self.tokens &= !1 << (end - room.word.here);
            }
            _ => self.forget(),
        }
    }

    /// Moves the end of a match back by one byte. The match must end at the byte offset `end`, in
    /// the current word.
    #[inline(always)]
    pub(crate) fn end_before(&mut self, end: usize) {
        if let Some(room) = &mut self.room {
            room.word.end_before(end);
        }
    }

    /// Moves to the next word of the chunk, and returns `true`. Returns `false` if the chunk has no
    /// next word, the current word is cut, or the lexer was moved.
    #[inline(always)]
    pub(crate) fn next_word(&mut self) -> bool {
        let next = self.room.as_mut().and_then(|room| room.next_word());
        self.tokens = next.unwrap_or(0);
        next.is_some()
    }

    /// Returns the state, and replaces it with [`Ahead::NONE`].
    #[inline(always)]
    pub(crate) fn take(&mut self) -> Ahead {
        core::mem::replace(self, Ahead::NONE)
    }

    #[inline(always)]
    fn next<'s, T: Tables<'s>>(&mut self, bytes: &[u8], end: usize) -> Next {
        let was_plain = core::mem::replace(&mut self.plain_to, 0) != 0;
        let room = match &mut self.room {
            Some(room) => room,
            // The lexer has not looked ahead yet.
            room if bytes.len().saturating_sub(end) >= BEGINS && T::HAS_ROWS => {
                room.insert(new_room(Way::ByRule))
            }
            _ => return self.attempts(end, usize::MAX),
        };
        if was_plain {
            room.begin_anew(end, T::ROOT);
        } else if room.is_moved {
            self.tokens = room.begin_at::<T>(bytes, end);
            if !room.is_empty() {
                return Next::Word;
            }
        } else if let Some(cut) = room.cut() {
            // The match may have moved the lexer: the walk begins at its offset after that.
            let start = room.word.last_end();
            let found = room.found_at::<T>(cut, start);
            room.is_moved = true;
            return match found {
                Some((leaf, end)) => Next::Match(leaf, start..end),
                None => Next::Repeat(start),
            };
        }
        T::refill(self, bytes)
    }

    /// Walks over the next chunk if the tables have rows and at least [`FEWEST`] bytes remain. For
    /// a lexer that looks ahead everywhere, one remaining byte suffices. Returns the next step of
    /// the lexer.
    #[inline(always)]
    fn refill<'s, T: Tables<'s>>(&mut self, bytes: &[u8]) -> Next {
        let Some(room) = &mut self.room else {
            return Next::End(0);
        };
        let (start, way) = (room.word.last_end(), room.way);
        let least = if way == Way::ByRule { FEWEST } else { 1 };
        if bytes.len().saturating_sub(room.end()) < least || !T::HAS_ROWS {
            if way == Way::Part {
                room.begin_anew(start, T::ROOT);
                return Next::End(start);
            }
            return self.attempts(start, usize::MAX);
        }
        self.tokens = room.walk::<T>(bytes, start);
        match room.plain_to() {
            Some(to) if way == Way::ByRule => self.attempts(start, to),
            _ => Next::Word,
        }
    }

    /// Forgets the tokens of the word, and lets match attempts find the items from the byte offset
    /// `from` up to `to`. Returns the step [`Next::Attempts`].
    fn attempts(&mut self, from: usize, to: usize) -> Next {
        self.forget();
        self.plain_to = to;
        Next::Attempts(from)
    }
}

/// The steps of a lexer that are called out of line. They are associated functions of the enum, so
/// that the compiler puts them next to the enum's `lex`, and a program contains each table only
/// once.
pub(crate) trait Looks<'source>: Tables<'source> {
    /// Returns the new state and the next step of a lexer whose last item ended at the byte offset
    /// `end`.
    #[inline(never)]
    fn go_on(mut ahead: Ahead, bytes: &[u8], end: usize) -> (Ahead, Next) {
        let next = ahead.next::<Self>(bytes, end);
        (ahead, next)
    }

    /// Calls [`Ahead::refill`] out of line.
    #[cold]
    #[inline(never)]
    fn refill(ahead: &mut Ahead, bytes: &[u8]) -> Next {
        ahead.refill::<Self>(bytes)
    }
}

impl<'source, T: Tables<'source>> Looks<'source> for T {}
