//! The loop over match attempts of a table-driven lexer. Called by `Logos::lex` of generated code.

#[cfg(feature = "std")]
use crate::ahead::{Looks, Next};
use crate::data::END;
#[cfg(feature = "std")]
use crate::folded::ERROR;
use crate::internal::{CallbackResult, Tables};
use crate::layout::continues;
use crate::loops::Loops;
use crate::rows::{AGAIN, CLOSES, ENDS, FORTH, NEVER, NOWHERE, NUMBERS, SINGLY, STAYS, VARIES};
#[cfg(not(feature = "std"))]
use crate::Way;
use crate::{Lexer, Logos, Source};
use core::ops::ControlFlow::{self, Break, Continue};

/// The result of a step of a lexer. `Break` contains the next item, or `None` at the end of the
/// input. `Continue` contains the value with which the lexer continues.
type Step<'source, Token, Next> =
    ControlFlow<Option<Result<Token, <Token as Logos<'source>>::Error>>, Next>;

/// Does nothing. A call of this function hints to the compiler that the branch with the call is
/// rare, so that the registers remain available to match attempts.
#[cfg(feature = "std")]
#[cold]
fn away() {}

/// The loop over match attempts, and the steps of the loop. They are associated functions of the
/// enum, so that the compiler puts them next to the enum's `lex`, and can inline `lex` into its
/// caller.
pub(crate) trait Run<'source>: Loops<'source> {
    /// Whether a row has an entry for each byte instead of for each class.
    const BY_BYTES: bool = Self::DATA.by_bytes();
    /// The number of columns of a row.
    const COLUMNS: usize = Self::LAYOUT.columns;
    /// The column of the end of the input.
    const END_COLUMN: usize = Self::LAYOUT.column[END] as usize;
    /// The bound below which an entry leads to a state with a row.
    const LEADS: u32 = (Self::LAYOUT.rows * Self::COLUMNS) as u32;
    /// The bound below which an entry leads to a state.
    const ENTERS: u32 = Self::LEADS + Self::LAYOUT.insides as u32;
    /// The entry that leads to the root.
    const START: u32 = (Self::LAYOUT.root * Self::COLUMNS) as u32;
    /// The number of leaves.
    const LEAVES: usize = Self::DATA.leaves();
    /// Whether all inputs are UTF-8.
    const IS_TEXT: bool = <Self::Source as Source>::IS_TEXT;
    /// The column of each byte.
    const BYTE_COLUMNS: &'static [u8; 256] = &columns(&Self::LAYOUT.column);
    /// The entry of each byte in the root.
    const FIRST: &'static [u32; 256] =
        &first(Self::ENTRIES, Self::START as usize, &Self::LAYOUT.column);

    /// Returns the entry of `byte` in the root.
    #[inline(always)]
    fn first_step(byte: u8) -> u32 {
        if Self::BY_BYTES {
            Self::ENTRIES[Self::START as usize + byte as usize]
        } else {
            Self::FIRST[byte as usize]
        }
    }

    /// Returns the entry of `byte` in `state`, which must have a row. Adds the column to the
    /// address of the table first, because the state comes from the preceding step and is known
    /// last.
    #[inline(always)]
    fn step(state: u32, byte: u8) -> u32 {
        Self::ENTRIES[Self::column(byte)..][state as usize]
    }

    /// Returns the column of a byte.
    #[inline(always)]
    fn column(byte: u8) -> usize {
        if Self::BY_BYTES {
            byte as usize
        } else {
            Self::BYTE_COLUMNS[byte as usize] as usize
        }
    }

    /// Returns whether an entry leads to a state without a row.
    #[inline(always)]
    fn is_inside(entry: u32) -> bool {
        entry >= Self::LEADS && entry < Self::ENTERS
    }

    /// Returns the entry of `byte` in `state`, which may have no row.
    #[inline(always)]
    fn any_step(rows: &'static [u32], state: u32, byte: u8) -> u32 {
        if Self::HAS_INSIDES && Self::is_inside(state) {
            return Self::step_inside(rows, state, byte);
        }
        rows[state as usize + Self::column(byte)]
    }

    /// Returns the entry of `byte` in `state`, which must have no row.
    #[inline(always)]
    fn step_inside(rows: &'static [u32], state: u32, byte: u8) -> u32 {
        if !Self::IS_TEXT && !continues(byte) {
            return NOWHERE;
        }
        rows[Self::INSIDES[(state - Self::LEADS) as usize].index(byte)]
    }

    /// Returns the number of the state whose row offset is `state`.
    #[inline(always)]
    fn number(state: u32) -> usize {
        if Self::HAS_INSIDES && Self::is_inside(state) {
            return Self::LAYOUT.rows + (state - Self::LEADS) as usize;
        }
        state as usize / Self::COLUMNS
    }

    /// Continues an attempt at the byte offset `from`, in the state `first`, which must have no
    /// row. Reads the rest of the character, and the characters after it that are not ASCII.
    /// Returns the last entry, the offset after the entry's byte, and the state before this byte.
    /// If the input ends inside a character, the entry is [`NOWHERE`], and the offset is 1 plus the
    /// length of the input.
    #[inline(never)]
    fn walk_characters(
        rows: &'static [u32],
        bytes: &[u8],
        from: usize,
        first: u32,
    ) -> (u32, usize, u32) {
        let (mut entry, mut at, mut last) = Self::end_character(rows, bytes, from, first);
        while entry < Self::LEADS {
            let state = entry;
            (entry, at, last) = Self::pass_characters(rows, bytes, at, state);
            if entry == state {
                break;
            }
        }
        (entry, at, last)
    }

    /// Continues an attempt at the byte offset `from` over the characters that are not ASCII and
    /// lead from `state` back to `state`. Also reads the next character if its first byte leads to
    /// a state without a row. Returns the last entry, the offset after the entry's byte, and the
    /// state before this byte.
    // In the loop the state does not change: so the steps of a character do not wait for those of
    // the one before.
    #[inline(always)]
    fn pass_characters(
        rows: &'static [u32],
        bytes: &[u8],
        from: usize,
        state: u32,
    ) -> (u32, usize, u32) {
        let mut at = from;
        while let Some(byte) = bytes.get(at).filter(|byte| !byte.is_ascii()) {
            let first = rows[state as usize + Self::column(*byte)];
            if !Self::is_inside(first) {
                break;
            }
            let (entry, to, last) = Self::end_character(rows, bytes, at + 1, first);
            at = to;
            if entry != state {
                return (entry, at, last);
            }
        }
        (state, at, state)
    }

    /// Continues an attempt at the byte offset `from`, in the state `first`, which must have no
    /// row. Reads the rest of the character. Returns the same values as [`Run::walk_characters`].
    #[inline(always)]
    fn end_character(
        rows: &'static [u32],
        bytes: &[u8],
        from: usize,
        first: u32,
    ) -> (u32, usize, u32) {
        let (mut state, mut at) = (first, from);
        while let Some(byte) = bytes.get(at) {
            let entry = Self::step_inside(rows, state, *byte);
            at += 1;
            if !Self::is_inside(entry) {
                return (entry, at, state);
            }
            state = entry;
        }
        (NOWHERE, at + 1, state)
    }

    /// Returns whether `entry` is of the kind `kind`, which must be a kind of entries with leaves.
    /// Does not extract the leaf, since this would need one more register.
    #[inline(always)]
    fn has_leaf(entry: u32, kind: u32) -> bool {
        entry.wrapping_sub(kind) < Self::LEAVES as u32
    }

    /// Returns the entry of the end of the input in `state`, or [`AGAIN`] if this entry leads to a
    /// state.
    #[cold]
    #[inline(never)]
    fn end_entry(rows: &'static [u32], state: u32) -> u32 {
        let entry = rows[state as usize + Self::END_COLUMN];
        if entry < ENDS {
            AGAIN
        } else {
            entry
        }
    }

    /// Repeats the attempt that begins at the byte offset `start`, byte by byte, and reads the
    /// marks of the states that the attempt enters. Returns the leaf and the end of the last match.
    /// If there is no match, returns a number that no leaf has, and the offset at which the attempt
    /// ended. The caller passes the rows, so that the codegen unit of this function needs no copy
    /// of the rows.
    #[cold]
    #[inline(never)]
    fn try_again(rows: &'static [u32], bytes: &[u8], start: usize) -> (usize, usize) {
        let (mut state, mut at) = (Self::START, start);
        let (mut leaf, mut end) = (Self::LEAVES, start);
        loop {
            let next = match bytes.get(at) {
                Some(byte) => Self::any_step(rows, state, *byte),
                None => rows[state as usize + Self::END_COLUMN],
            };
            if (STAYS..ENDS).contains(&next) {
                at += 1;
                continue;
            }
            let mark = Self::DATA.mark(if Self::HAS_INSIDES {
                Self::NUMBERED[Self::number(state)] as usize
            } else {
                Self::number(state)
            });
            if mark != 0 {
                (leaf, end) = (mark / 2 - 1, at - mark % 2);
            }
            if next >= NOWHERE {
                return (leaf, if leaf < Self::LEAVES { end } else { at });
            }
            if next >= ENDS {
                return ((next & NUMBERS) as usize, at + (next >= CLOSES) as usize);
            }
            state = next;
            at += 1;
        }
    }

    /// Returns the leaf and the end of the last match of an attempt. If there is no match, returns
    /// a number that no leaf has, and the offset at which the attempt ended.
    ///
    /// The attempt began at the byte offset `start`, and ended in `state` at the byte offset `at`.
    /// `entry` is the entry of the byte at `at`, before which no match ends.
    #[inline(always)]
    fn match_before(
        bytes: &[u8],
        start: usize,
        state: u32,
        entry: u32,
        at: usize,
    ) -> (usize, usize) {
        let last = Self::LAST_MATCHES[Self::number(state)];
        if entry != NOWHERE || last == VARIES {
            return Self::try_again(Self::ENTRIES, bytes, start);
        }
        if last == NEVER {
            return (Self::LEAVES, at);
        }
        let far = (last % FORTH) as usize;
        let end = if last & FORTH == 0 {
            at - far
        } else {
            start + far
        };
        ((last >> 8) as usize - 1, end)
    }

    /// Continues an attempt at the byte offset `from`, in the state `first`, up to the first entry
    /// that leads to no state. Returns this entry, the offset after the entry's byte, and the state
    /// before this byte. The end of the input counts as a byte.
    #[inline(always)]
    fn walk(bytes: &[u8], from: usize, first: u32) -> (u32, usize, u32) {
        let (mut state, mut at) = (first, from);
        'rows: loop {
            if Self::HAS_INSIDES && Self::is_inside(state) {
                let (next, to, last) = Self::walk_characters(Self::ENTRIES, bytes, at, state);
                if next >= Self::LEADS {
                    return (next, to, last);
                }
                (state, at) = (next, to);
            }
            'walk: loop {
                let Some(byte) = bytes.get(at) else {
                    return (Self::end_entry(Self::ENTRIES, state), at + 1, state);
                };
                let mut next = Self::step(state, *byte);
                at += 1;
                if next >= Self::LEADS {
                    if next >= ENDS {
                        return (next, at, state);
                    }
                    if Self::HAS_INSIDES && Self::is_inside(next) {
                        state = next;
                        continue 'rows;
                    }
                    let number = next as usize & Self::LOOP;
                    let block = bytes.get(at..).and_then(|rest| rest.first_chunk::<14>());
                    if next & SINGLY == 0 {
                        at = Self::stop(number, bytes, at);
                    } else if let Some(block) = block {
                        // The code that follows does not wait for the number of these that stay.
                        // Which number is the fastest depends on the text.
                        for (n, byte) in block.iter().enumerate() {
                            if !Self::stays(number, *byte) {
                                next = Self::step(state, *byte);
                                at += n + 1;
                                if next >= Self::LEADS {
                                    if Self::HAS_INSIDES && Self::is_inside(next) {
                                        state = next;
                                        continue 'rows;
                                    }
                                    return (next, at, state);
                                }
                                state = next;
                                continue 'walk;
                            }
                        }
                        at = Self::stop_far(Self::MASKS, number, bytes, at + 14);
                    } else {
                        at = Self::stop_late(Self::MASKS, number, bytes, at);
                    }
                    let Some(byte) = bytes.get(at) else {
                        return (Self::end_entry(Self::ENTRIES, state), at + 1, state);
                    };
                    next = Self::step(state, *byte);
                    at += 1;
                    if next >= Self::LEADS {
                        if Self::HAS_INSIDES && Self::is_inside(next) {
                            state = next;
                            continue 'rows;
                        }
                        return (next, at, state);
                    }
                }
                state = next;
            }
        }
    }

    /// Returns the next token or error, or `None` at the end of the input.
    #[inline(always)]
    fn lex_on(lex: &mut Lexer<'source, Self>) -> Option<Result<Self, Self::Error>> {
        loop {
            #[cfg(feature = "std")]
            if lex.ahead.has_tokens() || !lex.ahead.is_plain(lex.end()) {
                away();
                match Self::look(lex) {
                    Break(item) => return item,
                    Continue(None) => continue,
                    Continue(Some(leaf)) => match Self::act_on(lex, leaf) {
                        Break(item) => return item,
                        Continue(()) => continue,
                    },
                }
            }
            match Self::attempt(lex) {
                Break(item) => return item,
                Continue(leaf) => {
                    if let Break(item) = Self::act_on(lex, leaf) {
                        return item;
                    }
                }
            }
        }
    }

    /// Calls [`Tables::act`] for the lexer's current match of `leaf`. Returns the token or the
    /// error, or `Continue` if the match is skipped.
    #[inline(always)]
    fn act_on(lex: &mut Lexer<'source, Self>, leaf: usize) -> Step<'source, Self, ()> {
        let end = lex.end();
        let result = Self::act(lex, leaf);
        if lex.end() != end {
            lex.ahead.forget();
        }
        Break(Some(match result {
            CallbackResult::Emit(token) => Ok(token),
            CallbackResult::Skip => {
                lex.begin();
                return Continue(());
            }
            CallbackResult::Error(error) => Err(error),
            CallbackResult::DefaultError => Err(Self::error(lex)),
        }))
    }

    /// Takes the next item that the lexer has found ahead, or looks ahead further. Returns
    /// `Continue` with a leaf if the caller has to complete the match of this leaf with
    /// [`Run::act_on`], and `Continue` with `None` if there is no item yet.
    #[cfg(feature = "std")]
    #[inline(always)]
    fn look(lex: &mut Lexer<'source, Self>) -> Step<'source, Self, Option<usize>> {
        if let Some((leaf, end)) = lex.ahead.token() {
            let token = Self::plain(leaf);
            lex.ahead.pass();
            if let Some(token) = token {
                lex.set_end_ahead(end);
                return Break(Some(Ok(token)));
            }
            lex.set_span(lex.ahead.start_of(end)..end);
            return match leaf {
                _ if leaf < Self::LEAVES => Continue(Some(leaf)),
                ERROR => Break(Some(Err(Self::error_ahead(lex)))),
                _ => {
                    lex.set_end(end - 1);
                    lex.ahead.end_before(end);
                    Self::found(lex, leaf - Self::LEAVES)
                }
            };
        }
        if lex.ahead.next_word() {
            return Continue(None);
        }
        let bytes = Self::bytes(lex.source());
        let (ahead, next) = Self::go_on(lex.ahead.take(), bytes, lex.end());
        lex.ahead = ahead;
        match next {
            Next::Word => Continue(None),
            Next::Attempts(start) => {
                lex.set_span(start..start);
                Continue(None)
            }
            Next::Match(leaf, span) => {
                lex.set_span(span);
                Self::found(lex, leaf)
            }
            Next::Repeat(start) => {
                let (leaf, end) = Self::try_again(Self::ENTRIES, bytes, start);
                lex.set_span(start..end);
                Self::found(lex, leaf)
            }
            Next::End(end) => {
                lex.set_span(end..end);
                Break(None)
            }
        }
    }

    /// Returns the item of a match of `leaf`. The lexer's span is the span of the match. The item
    /// is an error if no leaf has the number `leaf`. Returns `Continue` with the leaf if the caller
    /// has to complete the match with [`Run::act_on`].
    #[cfg(feature = "std")]
    #[inline(always)]
    fn found(lex: &mut Lexer<'source, Self>, leaf: usize) -> Step<'source, Self, Option<usize>> {
        if leaf >= Self::LEAVES {
            return Break(Some(Err(Self::error_to(lex, lex.end()))));
        }
        match Self::plain_apart(leaf) {
            Some(token) => Break(Some(Ok(token))),
            None => Continue(Some(leaf)),
        }
    }

    /// Calls [`Tables::plain`] out of line, so that the compiler translates it to a table look-up
    /// instead of a jump.
    #[cfg(feature = "std")]
    #[inline(never)]
    fn plain_apart(leaf: usize) -> Option<Self> {
        Self::plain(leaf)
    }

    /// Returns the error that the lexer has found ahead. Moves the end of the error to the first
    /// boundary at or after the present end.
    #[cfg(feature = "std")]
    #[inline(always)]
    fn error_ahead(lex: &mut Lexer<'source, Self>) -> Self::Error {
        let end = lex.source().find_boundary(lex.end());
        if end != lex.end() {
            lex.set_end(end);
            lex.ahead.pass_to(end);
        }
        Self::error(lex)
    }

    /// Returns the error of an attempt that ended at the byte offset `over`. The error has at least
    /// one byte, and ends at the first boundary at or after this offset.
    #[inline(always)]
    fn error_to(lex: &mut Lexer<'source, Self>, over: usize) -> Self::Error {
        let end = over.max(lex.begun() + 1);
        lex.set_end(lex.source().find_boundary(end));
        Self::error(lex)
    }

    /// Returns whether the match that begins at the byte offset `start` does not depend on the
    /// bytes after the input. This is the case if a byte of the input ends the attempt.
    #[cfg(not(feature = "std"))]
    #[cold]
    fn is_sure(bytes: &[u8], start: usize) -> bool {
        let (mut state, mut at) = (Self::START, start);
        while let Some(byte) = bytes.get(at) {
            let next = Self::any_step(Self::ENTRIES, state, *byte);
            at += 1;
            if (CLOSES..NOWHERE).contains(&next) {
                return at < bytes.len();
            }
            if next >= ENDS {
                return true;
            }
            if next < STAYS {
                state = next;
            }
        }
        false
    }

    /// Finds the next item by match attempts. Returns the item, or `Continue` with a leaf if the
    /// caller has to complete the match of this leaf with [`Run::act_on`].
    #[inline(always)]
    fn attempt(lex: &mut Lexer<'source, Self>) -> Step<'source, Self, usize> {
        let bytes = Self::bytes(lex.source());
        let mut start = lex.end();
        'attempts: loop {
            let Some(byte) = bytes.get(start) else {
                return Break(None);
            };
            #[cfg(not(feature = "std"))]
            if lex.ahead.way == Way::Part && !Self::is_sure(bytes, start) {
                return Break(None);
            }
            let (mut entry, mut at, mut state) = (Self::first_step(*byte), start + 1, Self::START);
            // The leaf and the end of its match. Each case is a branch, so that the next attempt
            // does not wait for the entry to know its start.
            let (leaf, end) = 'found: {
                if Self::has_leaf(entry, CLOSES) {
                    break 'found ((entry & NUMBERS) as usize, at);
                }
                if entry < Self::ENTERS {
                    (entry, at, state) = Self::walk(bytes, at, entry);
                    if Self::has_leaf(entry, ENDS) {
                        break 'found ((entry & NUMBERS) as usize, at - 1);
                    }
                    if entry < CLOSES {
                        lex.set_end(at - 1);
                        lex.begin();
                        start = at - 1;
                        continue 'attempts;
                    }
                    if Self::has_leaf(entry, CLOSES) {
                        break 'found ((entry & NUMBERS) as usize, at);
                    }
                }
                if (CLOSES..NOWHERE).contains(&entry) {
                    lex.set_end(at);
                    lex.begin();
                    start = at;
                    continue 'attempts;
                }
                let (leaf, end) = Self::match_before(bytes, start, state, entry, at - 1);
                if leaf >= Self::LEAVES {
                    return Break(Some(Err(Self::error_to(lex, end))));
                }
                (leaf, end)
            };
            lex.set_end(end);
            return match Self::plain(leaf) {
                Some(token) => Break(Some(Ok(token))),
                None => Continue(leaf),
            };
        }
    }
}

impl<'source, T: Tables<'source>> Run<'source> for T {}

const fn columns(columns: &[u16; 257]) -> [u8; 256] {
    let (mut all, mut byte) = ([0; 256], 0);
    while byte < 256 {
        assert!(
            columns[byte] < 256,
            "the column of a byte is one of the first"
        );
        all[byte] = columns[byte] as u8;
        byte += 1;
    }
    all
}

const fn first(rows: &[u32], start: usize, columns: &[u16; 257]) -> [u32; 256] {
    let (mut first, mut byte) = ([0; 256], 0);
    while byte < 256 {
        first[byte] = rows[start + columns[byte] as usize];
        byte += 1;
    }
    first
}
