//! The guesses of the rows in which the blocks of a chunk begin. Used by `chunk`.

use crate::chunk::{step, BLOCK, BLOCKS, CHUNK};
use crate::folded::{Folded, OFFSET_MASK};
use crate::internal::Tables;

/// The number of bytes before a block that are examined to guess the row of the block.
const NEAR: usize = 32;
/// The number of bytes before a block that are searched for a line end.
const FAR: usize = 384;
/// The minimum number of bytes in a part that is processed in parallel with other parts.
pub(crate) const LEAST_PART: usize = 2 * NEAR;
/// The cost of each byte that is processed again.
pub(crate) const AGAIN: usize = 24;
/// The cost of each byte that a line-based guess examines.
const EXAMINE: usize = 10;
/// The number of counters for pairs of candidates.
const COUNTERS: usize = 64;
/// The maximum absolute value of a counter.
const MOST: i8 = 8;

/// The guessed row offsets of the blocks of a chunk.
pub(crate) struct Guesses {
    /// The offsets of the rows in which the blocks begin in the first walk.
    pub(crate) first: [u32; BLOCKS],
    /// The second candidates for the row offsets of the blocks, or `None` if there are no second
    /// candidates.
    second: Option<[u32; BLOCKS]>,
    /// Whether the guesses in `first` are line-based.
    by_lines: bool,
    /// The number of bytes that were examined for line-based guesses.
    looked: usize,
}

/// A guesser of rows, with statistics about earlier chunks.
pub(crate) struct Guesser {
    /// The row offset from which second candidates are computed. It is the row offset [`NEAR`]
    /// bytes before the latest block for which no candidate was right.
    other: u32,
    /// The counters for pairs of candidates, indexed by the hash of a pair. A counter states how
    /// much more often the lower candidate was right than the higher candidate.
    counters: [i8; COUNTERS],
    /// Whether a walk from a guess in the last chunk did not reach the right row within
    /// `chunk::SOON` bytes.
    pub(crate) missed: bool,
    /// The average costs of recent chunks: first with guesses from the last [`NEAR`] bytes before
    /// each block, then with line-based guesses.
    costs: [usize; 2],
}

impl Guesser {
    /// A guesser without statistics.
    pub(crate) const NEW: Guesser = Guesser {
        other: 0,
        counters: [0; COUNTERS],
        missed: false,
        costs: [0, EXAMINE * 500],
    };

    /// Guesses the row offsets of the blocks of a chunk. Uses the kind of guesses that has cost
    /// less in recent chunks.
    #[inline]
    pub(crate) fn guess<'s, T: Tables<'s>>(&mut self, input: &[u8; CHUNK]) -> Guesses {
        let by_lines = self.costs[1] < self.costs[0];
        let (first, looked) = if by_lines {
            T::guess_by_lines(input, <T as Folded>::ROOT)
        } else {
            (
                guess_row_offsets::<T>(input, BLOCK - NEAR, <T as Folded>::ROOT),
                0,
            )
        };
        let mut guesses = Guesses {
            first,
            second: None,
            by_lines,
            looked,
        };
        if core::mem::take(&mut self.missed) {
            self.add_second::<T>(input, &mut guesses);
        }
        guesses
    }

    /// Adds second candidates to `guesses`. Swaps the first and the second candidate for a block if
    /// the second candidate has been right more often.
    fn add_second<'s, T: Tables<'s>>(&self, input: &[u8; CHUNK], guesses: &mut Guesses) {
        let mut second = T::guess_others(input, self.other);
        for (first, second) in guesses.first.iter_mut().zip(&mut second) {
            let count = self.counters[hash(*first, *second)];
            if first < second && count < 0 || first > second && count > 0 {
                core::mem::swap(first, second);
            }
        }
        guesses.second = Some(second);
    }

    /// Returns the offsets of the rows in which the blocks begin in a second walk. The guess for
    /// the block at the index `k` was wrong, and `right` is the right row offset of this block.
    /// Adds second candidates to `guesses` if there are none.
    pub(crate) fn second<'s, T: Tables<'s>>(
        &mut self,
        input: &[u8; CHUNK],
        guesses: &mut Guesses,
        k: usize,
        right: u32,
    ) -> [u32; BLOCKS] {
        let second = guesses
            .second
            .get_or_insert_with(|| T::guess_others(input, self.other));
        let mut row_starts = guesses.first;
        row_starts[k] = right;
        row_starts[k + 1..].copy_from_slice(&second[k + 1..]);
        row_starts
    }

    /// Records which candidate for the block at the index `k` was right. `right` is the right row
    /// offset of the block.
    #[inline]
    pub(crate) fn learn(&mut self, guesses: &Guesses, k: usize, right: u32) {
        let first = guesses.first[k];
        let Some(second) = guesses.second.map(|it| it[k]) else {
            return;
        };
        if first != second && (first == right || second == right) {
            let count = &mut self.counters[hash(first, second)];
            let change = if right == first.min(second) { 1 } else { -1 };
            *count = (*count + change).clamp(-MOST, MOST);
        }
    }

    /// Records that the walk from the guess for the block at the index `k` did not reach the right
    /// row within `chunk::SOON` bytes. If the second candidate for the block was not right either,
    /// later second candidates are computed from the row that `trace` has [`NEAR`] bytes before
    /// this block.
    pub(crate) fn miss(&mut self, guesses: &Guesses, k: usize, right: u32, trace: &[u32; CHUNK]) {
        self.missed = true;
        if guesses.second.map(|it| it[k]) != Some(right) {
            self.other = trace[k * BLOCK - NEAR - 1] & OFFSET_MASK;
        }
    }

    /// Returns and records the cost of a chunk in which `again` bytes were processed again.
    /// Decreases the recorded cost of the other kind of guesses, so that the other kind is used
    /// again from time to time.
    #[inline]
    pub(crate) fn cost(&mut self, guesses: &Guesses, again: usize) -> usize {
        let cost = AGAIN * again + EXAMINE * guesses.looked;
        let (this, other) = (guesses.by_lines as usize, !guesses.by_lines as usize);
        self.costs[this] = (3 * self.costs[this] + cost) / 4;
        self.costs[other] -= self.costs[other] / 16;
        cost
    }
}

/// Returns the index of the counter for a pair of candidates. The order of the candidates does not
/// matter.
fn hash(first: u32, second: u32) -> usize {
    let (low, high) = (first.min(second), first.max(second));
    ((low.wrapping_mul(0x9E37_79B1) ^ high.wrapping_mul(0x85EB_CA77)) >> 26) as usize
}

/// The functions for rare guesses, which are called out of line.
trait Far<'source>: Tables<'source> {
    /// Guesses the row offsets of all blocks but the first from the bytes after the last line end
    /// before each block. Assumes that the row offset after a line end is `start`. Returns the
    /// guesses, and the number of bytes that were examined.
    #[cold]
    #[inline(never)]
    fn guess_by_lines(input: &[u8; CHUNK], start: u32) -> ([u32; BLOCKS], usize) {
        let mut from = BLOCK - NEAR;
        for k in 1..BLOCKS {
            let window = input[k * BLOCK - FAR..].first_chunk();
            from = from.min(BLOCK - FAR + last_line_end(window.expect("a window")));
        }
        let looked = (BLOCKS - 1) * (BLOCK - from);
        (guess_row_offsets::<Self>(input, from, start), looked)
    }

    /// Guesses the row offsets of all blocks but the first from the last bytes of the preceding
    /// blocks. Assumes that the row offset before these bytes is `start`.
    #[cold]
    #[inline(never)]
    fn guess_others(input: &[u8; CHUNK], start: u32) -> [u32; BLOCKS] {
        let mut row_starts = [start; BLOCKS];
        for at in BLOCK - NEAR..BLOCK {
            for k in 1..BLOCKS {
                row_starts[k] = step::<Self>(input[(k - 1) * BLOCK + at], row_starts[k]);
            }
        }
        row_starts.map(|row_start| row_start & OFFSET_MASK)
    }
}

impl<'source, T: Tables<'source>> Far<'source> for T {}

/// Guesses the row offsets of parts of `size` bytes each, as [`guess_row_offsets`] does for blocks.
/// The row offset of the first part is `first`.
#[inline]
pub(crate) fn guess_parts<'s, T: Tables<'s>>(
    rest: &[u8],
    size: usize,
    first: u32,
) -> [u32; BLOCKS] {
    let mut row_starts = [T::ROOT; BLOCKS];
    for at in size - NEAR..size {
        for k in 1..BLOCKS {
            let byte = rest[(k - 1) * size + at];
            let entry = step::<T>(byte, row_starts[k]);
            row_starts[k] = if byte == b'\n' { T::ROOT } else { entry };
        }
    }
    row_starts[0] = first;
    row_starts.map(|row_start| row_start & OFFSET_MASK)
}

/// Guesses the row offset of each block but the first from the bytes of the preceding block at and
/// after the index `from`. Assumes that the row offset is `start` before these bytes and after each
/// line end. The guesses are computed in parallel, as blocks are walked.
#[inline(always)]
fn guess_row_offsets<'s, T: Tables<'s>>(
    input: &[u8; CHUNK],
    from: usize,
    start: u32,
) -> [u32; BLOCKS] {
    let mut row_starts = [start; BLOCKS];
    for at in from..BLOCK {
        for k in 1..BLOCKS {
            let byte = input[(k - 1) * BLOCK + at];
            let entry = step::<T>(byte, row_starts[k]);
            row_starts[k] = if byte == b'\n' { start } else { entry };
        }
    }
    row_starts.map(|row_start| row_start & OFFSET_MASK)
}

/// Returns the index of the last line end in `window`. If there is no line end, returns the index
/// of the first of the last [`NEAR`] bytes.
fn last_line_end(window: &[u8; FAR]) -> usize {
    for (n, eight) in window.chunks_exact(8).enumerate().rev() {
        let ends = line_ends(eight);
        if ends != 0 {
            return 8 * n + 7 - ends.leading_zeros() as usize / 8;
        }
    }
    FAR - NEAR
}

/// Returns a number in which the highest bit of each byte is set if the corresponding byte of
/// `eight` is a line end. All other bits are 0.
fn line_ends(eight: &[u8]) -> u64 {
    const ONES: u64 = 0x7F7F_7F7F_7F7F_7F7F;
    let eight = u64::from_le_bytes([
        eight[0], eight[1], eight[2], eight[3], eight[4], eight[5], eight[6], eight[7],
    ]);
    let other = eight ^ 0x0A0A_0A0A_0A0A_0A0A;
    !(((other & ONES) + ONES) | other | ONES)
}
