//! The entries of the bytes of a chunk, and the walks that compute the entries with folded tables.
//! Used by `walk`.

use crate::folded::{leaf_of, Folded, ENDED, OFFSET_MASK};
use crate::guess::{guess_parts, Guesser, Guesses, AGAIN, LEAST_PART};
use crate::internal::Tables;
use crate::Span;
use std::boxed::Box;

/// The number of bytes in a block.
pub(crate) const BLOCK: usize = 768;
/// The number of blocks in a chunk. They are processed in parallel.
pub(crate) const BLOCKS: usize = 6;
/// The number of bytes of each block that one iteration of a walk processes.
const STEPS: usize = 6;
const _: () = assert!(BLOCK % STEPS == 0);
/// The number of bytes of each block that are tested at once for bytes that are not ASCII.
const SPAN: usize = 24;
const _: () = assert!(BLOCK % SPAN == 0 && SPAN % STEPS == 0 && STEPS <= 8);
/// The number of bytes in a chunk.
pub(crate) const CHUNK: usize = BLOCKS * BLOCK;
/// The number of bytes that a word represents. A word has one bit for each byte.
pub(crate) const WORD: usize = 64;
/// The number of words in a chunk.
const WORDS: usize = CHUNK / WORD;
/// The number of bytes within which most walks that begin in a wrong row reach the right row.
const SOON: usize = 48;
/// The number of bytes of each block that a second walk processes between two comparisons with the
/// first walk.
const PART: usize = 96;
const _: () = assert!(BLOCK % PART == 0 && PART % STEPS == 0);
/// The greatest index of a block at which a wrong guess can lead to a second walk over the blocks.
const LAST_SECOND: usize = BLOCKS - 3;

/// The matches that a walk over a chunk has found.
pub(crate) struct Chunk {
    /// The entry of each byte.
    trace: [u32; CHUNK],
    /// The words of the chunk. The bit of a byte is set if a match ends before the byte.
    ends: [u64; WORDS],
    /// The words of the chunk. The bit of a byte is set if a token ends before the byte, or if the
    /// byte needs a separate match attempt. In the second case, the byte's bit in `ends` is not
    /// set.
    tokens: [u64; WORDS],
    /// The entries of the latest second walk, or `None` if there was no second walk.
    others: Option<Box<[u32; CHUNK]>>,
}

/// The result of a second walk over all blocks but the first.
struct Second {
    /// The row offset before each block.
    before: [u32; BLOCKS],
    /// The row offset after the processed bytes of each block.
    after: [u32; BLOCKS],
    /// The number of processed bytes of each block.
    len: usize,
}

/// The result of a walk over at most one chunk.
pub(crate) struct Walked {
    /// The row offset after the last byte.
    pub(crate) row_start: u32,
    /// The cost of the guesses and of the bytes that were processed again.
    pub(crate) cost: usize,
}

impl Chunk {
    /// A chunk without matches.
    pub(crate) const NEW: Chunk = Chunk {
        trace: [0; CHUNK],
        ends: [0; WORDS],
        tokens: [0; WORDS],
        others: None,
    };

    /// Returns the result of [`leaf_of`] for the entry at the index `at` of the chunk, or `None` if
    /// the index is out of bounds.
    #[inline(always)]
    pub(crate) fn leaf(&self, at: usize) -> Option<usize> {
        Some(leaf_of(*self.trace.get(at)?))
    }

    /// Returns the row offset after the byte at the index `at` of the chunk.
    pub(crate) fn row_start(&self, at: usize) -> u32 {
        self.trace[at] & OFFSET_MASK
    }

    /// Returns the words in `ends` and in `tokens` with the byte at the index `at` of the chunk.
    /// Returns zeros if the index is out of bounds.
    #[inline(always)]
    pub(crate) fn bits(&self, at: usize) -> (u64, u64) {
        let word = at / WORD;
        match (self.ends.get(word), self.tokens.get(word)) {
            (Some(ends), Some(tokens)) => (*ends, *tokens),
            _ => (0, 0),
        }
    }

    /// Computes the bits of all words that contain a byte at an index in `from..to`. Reads all
    /// entries of these words.
    pub(crate) fn set_bits(&mut self, from: usize, to: usize) {
        for word in from / WORD..to.div_ceil(WORD).min(WORDS) {
            let trace = self.trace[WORD * word..].first_chunk();
            let mut flags = [0; 8];
            gather(trace.expect("the entries of a word"), &mut flags);
            (self.ends[word], self.tokens[word]) = bits_of(&flags);
        }
    }

    /// Computes the bits of the bytes at the indices in `from..to`, one by one, from the entries of
    /// these bytes. `walk` calls this function if the range has at most `FEW` bytes.
    pub(crate) fn set_few_bits(&mut self, from: usize, to: usize) {
        for (at, entry) in self.trace[..to].iter().enumerate().skip(from) {
            let (word, bit) = (at / WORD, at % WORD);
            let (end, token) = ((entry >> 31) as u64, (entry >> 30) as u64 & 1);
            self.ends[word] = self.ends[word] & !(1 << bit) | end << bit;
            self.tokens[word] = self.tokens[word] & !(1 << bit) | token << bit;
        }
    }

    /// Walks over all bytes of a chunk. The first block begins in the row at `row_start`, and
    /// `guesser` guesses the rows in which the other blocks begin. Returns the row offset after the
    /// chunk, and the cost.
    #[inline]
    pub(crate) fn walk<'s, T: Tables<'s>>(
        &mut self,
        input: &[u8; CHUNK],
        row_start: u32,
        guesser: &mut Guesser,
    ) -> Walked {
        let mut guesses = guesser.guess::<T>(input);
        guesses.first[0] = row_start;
        let row_starts = if T::HAS_INSIDES {
            T::walk_characters(input, &mut self.trace, guesses.first)
        } else {
            T::walk_blocks(input, &mut self.trace, guesses.first)
        };
        let walked = self.repair::<T>(input, guesses, row_starts, guesser);
        self.set_bits(0, CHUNK);
        walked
    }

    /// Repairs the entries of the blocks whose rows were guessed wrong. `row_starts` contains the
    /// row offset after each block. Returns the row offset after the chunk, and the cost.
    #[inline]
    fn repair<'s, T: Tables<'s>>(
        &mut self,
        input: &[u8; CHUNK],
        mut guesses: Guesses,
        row_starts: [u32; BLOCKS],
        guesser: &mut Guesser,
    ) -> Walked {
        let (mut row_start, mut again, mut second) = (row_starts[0], 0, None);
        for (k, after) in row_starts.into_iter().enumerate().skip(1) {
            let right = core::mem::replace(&mut row_start, after);
            guesser.learn(&guesses, k, right);
            if right == guesses.first[k] {
                continue;
            }
            if let Some(after) = self.take_second(&second, k, right) {
                row_start = after.unwrap_or(row_start);
                continue;
            }
            let (from, soon, to) = (k * BLOCK, k * BLOCK + SOON, (k + 1) * BLOCK);
            let (at, there) = self.walk_again::<T>(input, from..soon, right);
            again += at - from;
            if at < soon {
                continue;
            }
            guesser.miss(&guesses, k, right, &self.trace);
            if second.is_none() && k <= LAST_SECOND {
                let before = guesser.second::<T>(input, &mut guesses, k, right);
                let walked = self.walk_second::<T>(input, before);
                again += walked.len;
                second = Some(walked);
                let taken = self.take_second(&second, k, right);
                row_start = taken.flatten().unwrap_or(row_start);
                continue;
            }
            let (at, there) = self.walk_again::<T>(input, soon..to, there);
            again += at - soon;
            if at == to {
                row_start = there;
            }
        }
        let cost = guesser.cost(&guesses, again);
        Walked { row_start, cost }
    }

    /// Walks a second time over all blocks but the first. `before` contains the offset of the row
    /// in which each block begins.
    #[cold]
    fn walk_second<'s, T: Tables<'s>>(
        &mut self,
        input: &[u8; CHUNK],
        before: [u32; BLOCKS],
    ) -> Second {
        let others = self.others.get_or_insert_with(|| Box::new([0; CHUNK]));
        let (after, len) = T::walk_others(input, &self.trace, others, before);
        Second { before, after, len }
    }

    /// Copies the entries of the block at the index `k` from the second walk if the block begins in
    /// the row at `right` in the second walk. Returns:
    ///
    /// - `Some` with the row offset after the block, if the second walk processed the whole block.
    /// - `Some(None)` if the row offset after the block is unchanged since the first walk.
    /// - `None`, and copies nothing, if the block begins in another row, or there was no second
    ///   walk.
    #[inline]
    fn take_second(
        &mut self,
        second: &Option<Second>,
        k: usize,
        right: u32,
    ) -> Option<Option<u32>> {
        let Second { before, after, len } = second.as_ref()?;
        if before[k] != right {
            return None;
        }
        let range = k * BLOCK..k * BLOCK + len;
        self.trace[range.clone()].copy_from_slice(&self.others.as_ref()?[range]);
        Some((*len == BLOCK).then_some(after[k]))
    }

    /// Repairs the entries of the parts whose rows were guessed wrong. Each part has `size` bytes.
    /// `row_starts` contains the row offset after each part. Returns the row offset after the last
    /// part, and the cost.
    #[inline]
    fn repair_parts<'s, T: Tables<'s>>(
        &mut self,
        input: &[u8],
        size: usize,
        guesses: [u32; BLOCKS],
        row_starts: [u32; BLOCKS],
    ) -> Walked {
        let mut walked = Walked {
            row_start: row_starts[0],
            cost: 0,
        };
        for k in 1..BLOCKS {
            let (from, to) = (k * size, (k + 1) * size);
            let mut row_start = row_starts[k];
            if walked.row_start != guesses[k] {
                let (at, there) = self.walk_again::<T>(input, from..to, walked.row_start);
                walked.cost += AGAIN * (at - from);
                if at == to {
                    row_start = there;
                }
            }
            walked.row_start = row_start;
        }
        walked
    }

    /// Walks over `rest` from the row at `row_start` on. `rest` must have fewer bytes than a chunk.
    /// If [`BLOCKS`] parts of at least [`LEAST_PART`] bytes fit in `rest`, processes these parts in
    /// parallel. Processes the remaining bytes one at a time. Returns the row offset after `rest`,
    /// and the cost.
    #[inline]
    pub(crate) fn walk_rest<'s, T: Tables<'s>>(&mut self, rest: &[u8], row_start: u32) -> Walked {
        let size = rest.len() / BLOCKS;
        let mut walked = Walked { row_start, cost: 0 };
        let mut done = 0;
        if size >= LEAST_PART {
            let guesses = guess_parts::<T>(rest, size, row_start);
            let row_starts = T::walk_parts(rest, &mut self.trace, size, guesses);
            walked = self.repair_parts::<T>(rest, size, guesses, row_starts);
            done = BLOCKS * size;
        }
        for (entry, byte) in self.trace.iter_mut().zip(rest).skip(done) {
            *entry = step::<T>(*byte, walked.row_start);
            walked.row_start = *entry & OFFSET_MASK;
        }
        let end = rest.len().next_multiple_of(WORD).min(CHUNK);
        self.trace[rest.len().min(end)..end].fill(0);
        self.set_bits(0, rest.len());
        walked
    }

    /// Walks again over the bytes in `range`, from the row at `row_start` on, and sets their
    /// entries. Stops after the first byte that leads to the same row as before. Returns the index
    /// after the last processed byte, and the row offset after this byte.
    #[inline]
    pub(crate) fn walk_again<'s, T: Tables<'s>>(
        &mut self,
        input: &[u8],
        range: Span,
        row_start: u32,
    ) -> (usize, u32) {
        let mut row_start = row_start;
        for at in range.clone() {
            let entry = step::<T>(input[at], row_start);
            row_start = entry & OFFSET_MASK;
            let same = self.trace[at] & OFFSET_MASK == row_start;
            self.trace[at] = entry;
            if same {
                return (at + 1, row_start);
            }
        }
        (range.end, row_start)
    }

    /// Returns the number of bytes that need a separate match attempt, in the words that begin
    /// before the index `to`.
    pub(crate) fn undecided(&self, to: usize) -> usize {
        let words = self.ends.iter().zip(&self.tokens).take(to.div_ceil(WORD));
        let words = words.map(|(ends, tokens)| tokens & !ends);
        // In most chunks there is none, and counting takes longer.
        if words.clone().fold(0, |all, word| all | word) == 0 {
            return 0;
        }
        words.map(|word| word.count_ones() as usize).sum()
    }

    /// Samples one of every `one_of` words before the index `to`. Returns the number of bytes in
    /// the sample, the number of matches that end in the sample, and the number of states that are
    /// entered in the sample.
    pub(crate) fn sample(&self, to: usize, one_of: usize) -> [usize; 3] {
        let mut sums = [0; 3];
        for word in (0..(to / WORD).min(WORDS)).step_by(one_of) {
            let trace = self.trace[WORD * word..].first_chunk();
            sums[0] += WORD;
            sums[1] += self.ends[word].count_ones() as usize;
            sums[2] += entered(trace.expect("the entries of a word"));
        }
        sums
    }
}

/// Returns the number of bytes of a word that lead to another state or before which a match ends.
/// The first byte of the word is not counted.
fn entered(trace: &[u32; WORD]) -> usize {
    let mut entered = 0;
    for at in 1..WORD {
        let other = (trace[at - 1] ^ trace[at]) & OFFSET_MASK | trace[at] & ENDED;
        entered += (other != 0) as u32;
    }
    entered as usize
}

/// The walks over blocks, which are called out of line. They are associated functions of the enum,
/// so that the compiler puts them next to the enum's `lex`, and a program contains each table
/// only once.
trait Blocks<'source>: Tables<'source> {
    /// Walks over all blocks in parallel, and writes their entries to `trace`. Each block begins in
    /// its row in `row_starts`. Returns the row offsets after the blocks.
    #[inline(never)]
    fn walk_blocks(
        input: &[u8; CHUNK],
        trace: &mut [u32; CHUNK],
        row_starts: [u32; BLOCKS],
    ) -> [u32; BLOCKS] {
        let mut row_starts = row_starts;
        let blocks: [&[u8; BLOCK]; BLOCKS] =
            core::array::from_fn(|k| input[k * BLOCK..].first_chunk().expect("a block"));
        for at in (0..BLOCK).step_by(STEPS) {
            let part: Option<&mut [u32; CHUNK - BLOCK + STEPS]> = trace[at..].first_chunk_mut();
            // The compiler does not see where the part begins: so each store is at a fixed distance
            // from it. Many processors have more units for these than for stores with an index.
            let part = core::hint::black_box(part.expect("a part"));
            for n in 0..STEPS {
                for k in 0..BLOCKS {
                    let entry = step::<Self>(blocks[k][at + n], row_starts[k]);
                    part[k * BLOCK + n] = entry;
                    row_starts[k] = entry;
                }
            }
        }
        row_starts.map(|row_start| row_start & OFFSET_MASK)
    }

    /// Like [`Blocks::walk_blocks`], for lexers that have states without a row. If the input is
    /// UTF-8, no byte is read in a state without a row while the bytes of all blocks are ASCII.
    #[inline(never)]
    fn walk_characters(
        input: &[u8; CHUNK],
        trace: &mut [u32; CHUNK],
        row_starts: [u32; BLOCKS],
    ) -> [u32; BLOCKS] {
        let mut row_starts = row_starts;
        let blocks: [&[u8; BLOCK]; BLOCKS] =
            core::array::from_fn(|k| input[k * BLOCK..].first_chunk().expect("a block"));
        let (mut at, mut ascii_to) = (0, 0);
        while at < BLOCK {
            if at >= ascii_to {
                let span = at.min(BLOCK - SPAN);
                let others = high_bits(&blocks, span) | high_bits(&blocks, span + 8);
                let is_ascii = others | high_bits(&blocks, span + 16) == 0;
                if !is_ascii && high_bits(&blocks, at.min(BLOCK - 8)) != 0 {
                    // The call has a copy, so that the other steps keep the row offsets in
                    // registers.
                    let before = core::hint::black_box(row_starts);
                    let after = Self::step_characters(input, trace, at..BLOCK, before);
                    let (after, to) = core::hint::black_box(after);
                    row_starts = core::array::from_fn(|k| after[k]);
                    at = to;
                    continue;
                }
                ascii_to = if is_ascii { span + SPAN } else { at + STEPS };
            }
            let part: Option<&mut [u32; CHUNK - BLOCK + STEPS]> = trace[at..].first_chunk_mut();
            let part = core::hint::black_box(part.expect("a part"));
            for n in 0..STEPS {
                for k in 0..BLOCKS {
                    let entry = Self::entry_in_row(blocks[k][at + n], row_starts[k]);
                    part[k * BLOCK + n] = entry;
                    row_starts[k] = entry;
                }
            }
            at += STEPS;
        }
        row_starts.map(|row_start| row_start & OFFSET_MASK)
    }

    /// Walks over the bytes of each block at the indices in `range`, and writes their entries to
    /// `trace`. Stops before bytes that are ASCII in all blocks. Returns the last entry of each
    /// block, and the index at which the walk stopped.
    #[inline(never)]
    fn step_characters(
        input: &[u8; CHUNK],
        trace: &mut [u32; CHUNK],
        range: Span,
        row_starts: [u32; BLOCKS],
    ) -> ([u32; BLOCKS], usize) {
        let (mut row_starts, mut at) = (row_starts, range.start);
        let blocks: [&[u8; BLOCK]; BLOCKS] =
            core::array::from_fn(|k| input[k * BLOCK..].first_chunk().expect("a block"));
        while at < range.end {
            let others = high_bits(&blocks, at.min(BLOCK - 8));
            if others == 0 {
                break;
            }
            let bytes: Option<&[u8; CHUNK - BLOCK + STEPS]> = input[at..].first_chunk();
            let bytes = bytes.expect("a part");
            let part: Option<&mut [u32; CHUNK - BLOCK + STEPS]> = trace[at..].first_chunk_mut();
            let part = core::hint::black_box(part.expect("a part"));
            // Of the eight bytes of all blocks that were examined, more than half are not ASCII: in
            // text of other scripts no branch between the kinds of states can be predicted.
            let is_dense = others.count_ones() > 4;
            for n in 0..STEPS {
                if is_dense {
                    for k in 0..BLOCKS {
                        let entry = Self::entry_in_text(bytes[k * BLOCK + n], row_starts[k]);
                        part[k * BLOCK + n] = entry;
                        row_starts[k] = entry;
                    }
                    continue;
                }
                for k in 0..BLOCKS {
                    let entry = step::<Self>(bytes[k * BLOCK + n], row_starts[k]);
                    part[k * BLOCK + n] = entry;
                    row_starts[k] = entry;
                }
            }
            at += STEPS;
        }
        (row_starts, at)
    }

    /// Walks over parts of `size` bytes in parallel, and writes their entries to `trace`. Each part
    /// begins in its row in `row_starts`. Returns the row offsets after the parts.
    #[inline(never)]
    fn walk_parts(
        rest: &[u8],
        trace: &mut [u32; CHUNK],
        size: usize,
        row_starts: [u32; BLOCKS],
    ) -> [u32; BLOCKS] {
        let mut row_starts = row_starts;
        let parts: [&[u8]; BLOCKS] = core::array::from_fn(|k| &rest[k * size..(k + 1) * size]);
        let mut traces = trace.chunks_exact_mut(size);
        let traces: [&mut [u32]; BLOCKS] = core::array::from_fn(|_| traces.next().expect("a part"));
        let is_ascii = !Self::HAS_INSIDES || rest.is_ascii();
        for at in 0..size {
            for k in 0..BLOCKS {
                let entry = if is_ascii {
                    Self::entry_in_row(parts[k][at], row_starts[k])
                } else {
                    Self::entry_in_text(parts[k][at], row_starts[k])
                };
                traces[k][at] = entry;
                row_starts[k] = entry;
            }
        }
        row_starts.map(|row_start| row_start & OFFSET_MASK)
    }

    /// Walks in parallel over all blocks but the first, and writes their entries to `others`. Each
    /// block begins in its row in `row_starts`. The walk stops when the row offsets of all blocks
    /// are equal to those in `trace`. Returns the row offsets at which the walk stops, and the
    /// number of processed bytes of each block.
    #[inline(never)]
    fn walk_others(
        input: &[u8; CHUNK],
        trace: &[u32; CHUNK],
        others: &mut [u32; CHUNK],
        row_starts: [u32; BLOCKS],
    ) -> ([u32; BLOCKS], usize) {
        let mut row_starts = row_starts;
        let blocks: [&[u8; BLOCK]; BLOCKS] =
            core::array::from_fn(|k| input[k * BLOCK..].first_chunk().expect("a block"));
        for from in (0..BLOCK).step_by(PART) {
            for at in (from..from + PART).step_by(STEPS) {
                if Self::HAS_INSIDES && high_bits(&blocks, at.min(BLOCK - 8)) != 0 {
                    (row_starts, _) =
                        Self::step_characters(input, others, at..at + STEPS, row_starts);
                    continue;
                }
                let part: Option<&mut [u32; CHUNK - BLOCK + STEPS]> =
                    others[at..].first_chunk_mut();
                let part = core::hint::black_box(part.expect("a part"));
                for n in 0..STEPS {
                    for k in 1..BLOCKS {
                        let entry = Self::entry_in_row(blocks[k][at + n], row_starts[k]);
                        part[k * BLOCK + n] = entry;
                        row_starts[k] = entry;
                    }
                }
            }
            let last = from + PART - 1;
            let differ = |k: usize| (row_starts[k] ^ trace[k * BLOCK + last]) & OFFSET_MASK;
            if (1..BLOCKS).fold(0, |all, k| all | differ(k)) == 0 {
                return (row_starts.map(|it| it & OFFSET_MASK), from + PART);
            }
        }
        (row_starts.map(|it| it & OFFSET_MASK), BLOCK)
    }
}

impl<'source, T: Tables<'source>> Blocks<'source> for T {}

/// Returns the union of the highest bits of the eight bytes from the index `from` on, over all
/// blocks. The result is 0 if all these bytes are ASCII.
#[inline(always)]
fn high_bits(blocks: &[&[u8; BLOCK]; BLOCKS], from: usize) -> u64 {
    let eights = blocks.iter().map(|block| block[from..].first_chunk());
    let all = eights.fold(0, |all, eight| {
        all | eight.map_or(0, |it| u64::from_ne_bytes(*it))
    });
    all & 0x8080_8080_8080_8080
}

/// Writes the flags of the entries of a word to `to`. Each number in `to` contains the flags of
/// every fourth entry of one half of the word, four bits apart. The function is not inlined and
/// writes to memory, so that the compiler vectorizes it.
#[inline(never)]
fn gather(trace: &[u32; WORD], to: &mut [u32; 8]) {
    let (low, high) = trace.split_at(WORD / 2);
    let mut flags = [0; 8];
    for (low, high) in low.chunks_exact(4).zip(high.chunks_exact(4)).rev() {
        for n in 0..4 {
            flags[n] = flags[n] << 4 | low[n] >> 30;
            flags[n + 4] = flags[n + 4] << 4 | high[n] >> 30;
        }
    }
    *to = flags;
}

/// Returns a word for `ends` and a word for `tokens`, from the flags that [`gather`] has written.
#[inline(always)]
fn bits_of(flags: &[u32; 8]) -> (u64, u64) {
    const FOURTHS: u64 = 0x1111_1111_1111_1111;
    let (mut ends, mut tokens) = (0, 0);
    for n in 0..4 {
        let flags = flags[n] as u64 | (flags[n + 4] as u64) << 32;
        tokens |= (flags & FOURTHS) << n;
        ends |= (flags >> 1 & FOURTHS) << n;
    }
    (ends, tokens)
}

/// Returns the entry of `byte` in the row at `row_start`. Ignores the upper bits of `row_start`,
/// which can therefore be an entry.
#[inline(always)]
pub(crate) fn step<'s, T: Tables<'s>>(byte: u8, row_start: u32) -> u32 {
    T::entry_of(byte, row_start)
}

#[cfg(test)]
mod tests {
    use super::{Chunk, CHUNK};

    #[test]
    fn few_bits_are_set_as_all_are() {
        let (mut chunk, mut seed) = (Chunk::NEW, 1u32);
        for entry in &mut chunk.trace {
            seed = seed.wrapping_mul(1664525).wrapping_add(1013904223);
            *entry = seed;
        }
        chunk.set_bits(0, CHUNK);
        for from in (0..CHUNK - 5).step_by(61) {
            for entry in &mut chunk.trace[from..from + 5] {
                *entry = !*entry;
            }
            chunk.set_few_bits(from, from + 5);
        }
        let few = (chunk.ends, chunk.tokens);
        chunk.set_bits(0, CHUNK);
        assert_eq!(few, (chunk.ends, chunk.tokens));
    }
}
