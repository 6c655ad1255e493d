//! The walk over an input, chunk by chunk. Used by `ahead`, which takes the tokens of the walk.

use crate::chunk::{Chunk, CHUNK, WORD};
use crate::folded::{Folded, Last};
use crate::guess::{Guesser, AGAIN};
use crate::internal::Tables;
use crate::word::Word;
use crate::Way;

/// The cost of a walk for each byte. The costs are not times: they were chosen to separate the
/// measured texts on which walks are faster from the texts on which walks are slower.
const STEP: usize = 6;
/// The cost of a walk for each undecided entry.
const UNDECIDED: usize = 400;
/// The cost of a walk for each repeated attempt.
const ATTEMPT: usize = 400;
/// The cost of `Logos::lex` for each match.
const MATCH: usize = 39;
/// The cost of `Logos::lex` for each state that it enters.
const ENTER: usize = 19;
/// The factor by which the cost of guesses is multiplied. With a factor of 1, walks were chosen on
/// texts on which many guesses fail, and were slower than match attempts.
const GUESSES: usize = 2;
/// The denominator of the limit 3/4. If a match ends at more than three quarters of the bytes,
/// processors predict the branches of match attempts, and match attempts are faster than walks.
const ALMOST_ALL: usize = 4;
/// The minimum number of chunks that match attempts process if walks do not save time.
const FEWEST_PLAIN: usize = 4;
/// The maximum number of chunks that match attempts process if walks repeatedly do not save time.
const MOST_PLAIN: usize = 64;
/// The maximum number of bytes whose bits are set one by one.
const FEW: usize = 6;
/// The number of words of which one is examined to decide whether walks save time.
const SAMPLED: usize = 18;

/// The number of bytes of a trial walk, which determines after match attempts whether walks save
/// time.
const TRIAL: usize = 768;

/// A walk over an input, with its latest chunk and the word of this chunk whose tokens the lexer
/// takes.
pub(crate) struct Walk {
    /// The latest chunk.
    chunk: Chunk,
    /// The word whose tokens the lexer takes.
    pub(crate) word: Word,
    /// Whether the lexer was moved, so that the word does not follow the last item.
    pub(crate) is_moved: bool,
    /// The setting that determines where the lexer looks ahead.
    pub(crate) way: Way,
    /// The index in the chunk of the byte before which the word is cut, because the entry of the
    /// byte needs a match attempt. `None` if the word is not cut.
    cut: Option<usize>,
    /// The byte offset of the chunk in the input.
    base: usize,
    /// The number of bytes in the chunk.
    len: usize,
    /// The row offset before the chunk.
    first: u32,
    /// The row offset after the chunk.
    row_start: u32,
    /// The cost of guesses and of repeated steps in the chunk.
    cost: usize,
    /// The cost of the moves of the lexer since the last decision about walks.
    moves: usize,
    /// The cost that recent walks have saved.
    gain: isize,
    /// The number of chunks that match attempts processed when walks last did not save time. Each
    /// later walk that saves time halves the number.
    plain: usize,
    /// Whether the next walk processes only [`TRIAL`] bytes.
    tries: bool,
    /// The guesser of the rows in which blocks begin.
    guesser: Guesser,
}

/// A walk that is stored in a box.
pub(crate) type Room = std::boxed::Box<Walk>;

/// Returns a walk that has not begun, for a lexer that looks ahead according to `way`.
#[cold]
pub(crate) fn new_room(way: Way) -> Room {
    const NEW: Walk = Walk {
        chunk: Chunk::NEW,
        word: Word::empty(0),
        is_moved: true,
        way: Way::ByRule,
        cut: None,
        base: 0,
        len: 0,
        first: 0,
        row_start: 0,
        cost: 0,
        moves: 0,
        gain: 0,
        plain: 0,
        tries: false,
        guesser: Guesser::NEW,
    };
    let mut room = std::boxed::Box::new(NEW);
    room.way = way;
    room.tries = way == Way::ByRule;
    room
}

impl Walk {
    /// Returns the leaf and the end of the first token of the word whose bit is set in `tokens`. At
    /// least one bit must be set. Returns `None` if the first set bit is after the end of the
    /// chunk.
    #[inline(always)]
    pub(crate) fn token(&self, tokens: u64) -> Option<(usize, usize)> {
        let bit = tokens.trailing_zeros() as usize;
        let leaf = self.chunk.leaf(self.word.at + bit)?;
        Some((leaf, self.word.here + bit))
    }

    /// Moves to the next word of the chunk, and returns the bits of the word's tokens. Returns
    /// `None` if the chunk has no next word, the current word is cut, or the lexer was moved.
    #[inline(always)]
    pub(crate) fn next_word(&mut self) -> Option<u64> {
        let word = &self.word;
        let at = word.at + WORD;
        if self.is_moved || self.cut.is_some() || at >= self.len {
            return None;
        }
        Some(self.begin_word(at, word.here + WORD, !0, word.last_end()))
    }

    /// Moves to the word at the index `at` of the chunk, which is at the byte offset `here` of the
    /// input. The first match of the word begins at the byte offset `start`. Returns the bits of
    /// the tokens in the word, limited to the bits in `from` before the first entry that needs a
    /// match attempt.
    #[inline(always)]
    fn begin_word(&mut self, at: usize, here: usize, from: u64, start: usize) -> u64 {
        let (ends, tokens) = self.chunk.bits(at);
        let undecided = tokens & !ends & from;
        let mut left = from;
        if undecided != 0 {
            left &= (undecided - 1) & !undecided;
            self.cut = Some(at + undecided.trailing_zeros() as usize);
        }
        self.word = Word {
            ends: ends & left,
            here,
            at,
            start,
        };
        tokens & left
    }

    /// Returns whether the chunk has no bytes. This is the case before the first walk, and after
    /// the lexer was moved out of the chunk.
    pub(crate) fn is_empty(&self) -> bool {
        self.len == 0
    }

    /// Returns the byte offset in the input at which the chunk ends.
    pub(crate) fn end(&self) -> usize {
        self.base + self.len
    }

    /// Returns the index in the chunk of the byte before which the word is cut, or `None` if the
    /// word is not cut.
    pub(crate) fn cut(&self) -> Option<usize> {
        self.cut
    }

    /// Walks over the next chunk. The last match ended at the byte offset `start`. Returns the bits
    /// of the tokens in the chunk's first word.
    #[inline]
    pub(crate) fn walk<'s, T: Tables<'s>>(&mut self, bytes: &[u8], start: usize) -> u64 {
        self.base += self.len;
        self.first = self.row_start;
        let mut rest = bytes.get(self.base..).unwrap_or_default();
        if core::mem::take(&mut self.tries) {
            rest = rest.get(..TRIAL).unwrap_or(rest);
        }
        if let Some(input) = rest.first_chunk::<CHUNK>() {
            self.walk_chunk::<T>(input);
        } else {
            self.walk_rest::<T>(rest);
        }
        self.begin_word(0, self.base, !0, start)
    }

    /// Walks over `input` as a whole chunk. Sets the length of the chunk, the row offset after it,
    /// and the cost.
    #[inline]
    fn walk_chunk<'s, T: Tables<'s>>(&mut self, input: &[u8; CHUNK]) {
        let guesser = &mut self.guesser;
        let walked = self.chunk.walk::<T>(input, self.row_start, guesser);
        (self.len, self.row_start, self.cost) = (CHUNK, walked.row_start, walked.cost);
    }

    /// Walks over `rest`, which must have fewer bytes than a whole chunk. Sets the length of the
    /// chunk, the row offset after it, and the cost.
    #[inline]
    fn walk_rest<'s, T: Tables<'s>>(&mut self, rest: &[u8]) {
        let walked = self.chunk.walk_rest::<T>(rest, self.row_start);
        (self.len, self.row_start, self.cost) = (rest.len(), walked.row_start, walked.cost);
    }

    /// Returns the leaf and the end of the match of an attempt. If there is no match, returns a
    /// number that no leaf has, and the offset at which the attempt ended. Returns `None` if the
    /// attempt must be repeated.
    ///
    /// The attempt began at the byte offset `start` of the input, and ended at the byte at the
    /// index `cut` of the chunk.
    #[inline]
    pub(crate) fn found_at<'s, T: Tables<'s>>(
        &mut self,
        cut: usize,
        start: usize,
    ) -> Option<(usize, usize)> {
        let end = self.base + cut;
        let leaf = self.chunk.leaf(cut).unwrap_or_default();
        if leaf != 0 {
            return Some((leaf - 1, end));
        }
        let row_start = match cut.checked_sub(1) {
            _ if end == start => <T as Folded>::ROOT,
            Some(before) => self.chunk.row_start(before),
            None => self.first,
        };
        match T::last(row_start) {
            Last::Never => Some((usize::MAX, end)),
            Last::Back(leaf, bytes) => Some((leaf, end - bytes)),
            Last::Varies => {
                self.moves += ATTEMPT;
                None
            }
        }
    }

    /// Lets the next match begin at the byte offset `start`, and repairs the entries from this
    /// offset on. Returns the bits of the tokens in the word that contains the offset. If the
    /// offset is not in the chunk, forgets the chunk and returns 0.
    #[inline]
    pub(crate) fn begin_at<'s, T: Tables<'s>>(&mut self, bytes: &[u8], start: usize) -> u64 {
        let root = <T as Folded>::ROOT;
        let at = start.wrapping_sub(self.base);
        if at >= self.len {
            self.begin_anew(start, root);
            self.tries = self.way == Way::ByRule;
            return 0;
        }
        let input = &bytes[self.base..];
        let (to, row_start) = self.chunk.walk_again::<T>(input, at..self.len, root);
        if to == self.len {
            self.row_start = row_start;
        }
        self.moves += AGAIN * (to - at);
        if self.cut.is_none() {
            self.moves += UNDECIDED;
        }
        if to - at <= FEW {
            self.chunk.set_few_bits(at, to);
        } else {
            self.chunk.set_bits(at, to);
        }
        self.cut = None;
        let begun = at % WORD;
        self.is_moved = false;
        self.begin_word(at - begun, start - begun, !0 << begun, start)
    }

    /// Forgets the chunk, and lets the next match begin at the byte offset `start`, in the row at
    /// `root`.
    pub(crate) fn begin_anew(&mut self, start: usize, root: u32) {
        (self.cut, self.len, self.base, self.row_start) = (None, 0, start, root);
        (self.word, self.is_moved) = (Word::empty(start), false);
    }

    /// Returns the byte offset up to which match attempts find the items, or `None` if taking the
    /// tokens of this chunk saves time. The decision depends on the walks over this chunk and the
    /// preceding chunks.
    pub(crate) fn plain_to(&mut self) -> Option<usize> {
        let sampled = if self.len < CHUNK {
            SAMPLED / 6
        } else {
            SAMPLED
        };
        let [bytes, ends, entered] = self.chunk.sample(self.len, sampled);
        let lexer = if ends * ALMOST_ALL > bytes * 3 {
            0
        } else {
            sampled * (MATCH * ends + ENTER * entered)
        };
        let undecided = UNDECIDED * self.chunk.undecided(self.len);
        let moves = core::mem::take(&mut self.moves);
        let walk = sampled * STEP * bytes + GUESSES * self.cost + undecided + moves;
        self.gain = self.gain / 8 * 7 + lexer as isize - walk as isize;
        if self.gain > 0 {
            self.plain /= 2;
            return None;
        }
        (self.gain, self.tries) = (0, true);
        self.plain = (2 * self.plain).clamp(FEWEST_PLAIN, MOST_PLAIN);
        Some(self.end() + self.plain * CHUNK)
    }
}
