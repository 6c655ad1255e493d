//! Words, each of which represents 64 bytes of a chunk. The bit of a byte is set if a match ends
//! before the byte. Used by `walk` and `ahead`.

/// 64 bytes of a chunk, with the matches that end before these bytes. The bits of tokens are stored
/// in `Ahead`, since tokens are taken one by one.
#[derive(Clone, Copy)]
pub(crate) struct Word {
    /// A bit for each byte, the lowest bit for the first byte. The bit is set if a match ends
    /// before the byte.
    pub(crate) ends: u64,
    /// The byte offset of the word in the input.
    pub(crate) here: usize,
    /// The index of the word's first byte in the chunk.
    pub(crate) at: usize,
    /// The byte offset in the input at which the first match of the word begins.
    pub(crate) start: usize,
}

impl Word {
    /// Returns a word in which no match ends. The next match begins at the byte offset `start` of
    /// the input.
    pub(crate) const fn empty(start: usize) -> Word {
        Word {
            ends: 0,
            here: start,
            at: 0,
            start,
        }
    }

    /// Returns the start of the match that ends at the byte offset `end` of the input. The match
    /// must end in the word.
    #[inline(always)]
    pub(crate) fn start_of(&self, end: usize) -> usize {
        let bit = 1 << (end.wrapping_sub(self.here) & 63);
        self.after(self.ends & (bit - 1))
    }

    /// Returns whether a match of the word ends at the byte offset `offset` of the input.
    #[inline(always)]
    pub(crate) fn ends_at(&self, offset: usize) -> bool {
        let bit = offset.wrapping_sub(self.here);
        bit < 64 && self.ends >> bit & 1 == 1
    }

    /// Moves the end of the match that ends at the byte offset `end` of the input back by one byte.
    #[inline(always)]
    pub(crate) fn end_before(&mut self, end: usize) {
        let bit = 1 << (end.wrapping_sub(self.here) & 63);
        self.ends = self.ends & !bit | bit >> 1;
        if bit == 1 {
            self.start = end - 1;
        }
    }

    /// Returns the end of the last match of the word, or `start` if no match ends in the word.
    #[inline(always)]
    pub(crate) fn last_end(&self) -> usize {
        self.after(self.ends)
    }

    /// Returns the byte offset of the highest bit that is set in `ends`, or `start` if no bit is
    /// set.
    #[inline(always)]
    fn after(&self, ends: u64) -> usize {
        if ends == 0 {
            return self.start;
        }
        self.here + (63 - ends.leading_zeros() as usize)
    }
}
