//! The fast loops of a lexer: their tables, and the search for the first byte that a fast loop does
//! not consume. Used by `run`.

use crate::characters;
use crate::data::{Row, Unpacked, END, SYMBOLS};
use crate::internal::Tables;

/// The mask of a fast loop, with eight numbers for each byte. The numbers are 0 if the fast loop
/// consumes the byte. Otherwise only bit `k` of the number at the index `k` is set.
///
/// For a block of eight bytes, take the number at the index `k` of the `k`-th byte. The sum of
/// these numbers over all `k` is the set of the bytes of the block that the fast loop does not
/// consume.
pub type Mask = [[u8; 8]; 256];

#[derive(Clone, Copy)]
#[repr(align(16))]
struct Bytes([u8; 16]);

/// A range of bytes that a fast loop consumes.
#[derive(Clone, Copy)]
struct Range {
    /// The lowest byte of the range, sixteen times.
    lowest: Bytes,
    /// The distance from the lowest byte to the highest byte of the range, sixteen times.
    length: Bytes,
}
/// The maximum number of ranges with which a search compares each byte.
const MOST_RANGES: usize = 4;

/// The ranges of the bytes that a fast loop consumes, and the number of these ranges. If there are
/// fewer than `MOST_RANGES` ranges, the first range is repeated. If there are more, only the first
/// `MOST_RANGES` ranges are stored.
pub struct Ranges([Range; MOST_RANGES], usize);

impl<const STATES: usize, const RUNS: usize> Unpacked<STATES, RUNS> {
    /// Returns the masks of all fast loops. The number of masks is a power of two, and there is at
    /// least one mask.
    ///
    /// # Panics
    ///
    /// Panics if `LOOPS` is less than the number of fast loops, or is not a power of two.
    pub(crate) const fn all_masks<const LOOPS: usize>(&self) -> [Mask; LOOPS] {
        assert!(LOOPS >= self.loops && LOOPS.is_power_of_two());
        let (mut masks, mut done, mut state) = ([[EACH; 256]; LOOPS], 0, 0);
        while state < STATES {
            let row = &self.rows[state];
            if row.staying > 0 && row.number == done {
                masks[done] = self.mask(state);
                done += 1;
            }
            state += 1;
        }
        assert!(done == self.loops, "each row is that of a state");
        masks
    }

    /// Returns the mask of the fast loop of a state.
    const fn mask(&self, state: usize) -> Mask {
        let Row { run, passed, .. } = self.rows[state];
        let (mut stays, mut class, mut run, mut passed) = ([false; SYMBOLS], 0, run, passed);
        while class < self.data.width {
            let end = class + self.runs[run].length - passed;
            while class < end && class < self.data.width {
                stays[class] = self.runs[run].step == 1;
                class += 1;
            }
            (run, passed) = (run + 1, 0);
        }
        let (mut mask, mut byte) = ([EACH; 256], 0);
        while byte < END {
            if stays[self.classes[byte] as usize] || characters::stays(self.leads[state], byte) {
                mask[byte] = [0; 8];
            }
            byte += 1;
        }
        mask
    }
}

/// The numbers in a mask for a byte that the fast loop does not consume.
const EACH: [u8; 8] = [1, 2, 4, 8, 16, 32, 64, 128];

impl Ranges {
    /// Returns the ranges for all masks of a lexer.
    ///
    /// # Panics
    ///
    /// Panics if `LOOPS` is not the number of masks.
    pub const fn of<'source, T: Tables<'source>, const LOOPS: usize>() -> [Ranges; LOOPS] {
        let masks = T::MASKS;
        assert!(LOOPS == masks.len());
        let (mut ranges, mut n) = ([NONE; LOOPS], 0);
        while n < LOOPS {
            ranges[n] = Ranges::in_mask(&masks[n]);
            n += 1;
        }
        ranges
    }

    const fn in_mask(mask: &Mask) -> Ranges {
        let (mut lowest, mut length, mut count, mut byte) = ([0; 129], [0; 129], 0, 0);
        while byte < 256 {
            if mask[byte][0] == 0 {
                if byte == 0 || mask[byte - 1][0] != 0 {
                    lowest[count] = byte as u8;
                    count += 1;
                }
                length[count - 1] = byte as u8 - lowest[count - 1];
            }
            byte += 1;
        }
        let (mut ranges, mut n) = (NONE, 0);
        ranges.1 = count;
        while n < MOST_RANGES {
            let of = if n < count { n } else { 0 };
            ranges.0[n] = Range {
                lowest: Bytes([lowest[of]; 16]),
                length: Bytes([length[of]; 16]),
            };
            n += 1;
        }
        ranges
    }

    /// Returns the greatest number of ranges of a fast loop, among the fast loops with at most
    /// [`MOST_RANGES`] ranges. Returns 1 if there is no such fast loop.
    pub(crate) const fn most(all: &[Ranges]) -> usize {
        let (mut most, mut n) = (1, 0);
        while n < all.len() {
            if all[n].1 > most && all[n].1 <= MOST_RANGES {
                most = all[n].1;
            }
            n += 1;
        }
        most
    }
}

const NONE: Ranges = {
    let none = Bytes([0; 16]);
    let range = Range {
        lowest: none,
        length: none,
    };
    Ranges([range; MOST_RANGES], 0)
};

/// Returns a bit for each byte of a block. The bit is set if the fast loop does not consume the
/// byte. Sums of distinct bits are equal to unions, and keep the compiler from joining all eight
/// operations in one chain.
#[inline(always)]
fn bits(mask: &Mask, block: &[u8; 8]) -> u8 {
    let low = mask[block[0] as usize][0] | mask[block[1] as usize][1];
    let low = low.wrapping_add(mask[block[2] as usize][2] | mask[block[3] as usize][3]);
    let high = mask[block[4] as usize][4] | mask[block[5] as usize][5];
    let high = high.wrapping_add(mask[block[6] as usize][6] | mask[block[7] as usize][7]);
    low | high
}

/// Returns a number for each byte of a block. The lowest eight bits contain the number of the first
/// byte. The number of a byte is 0 if the byte is in one of the first `most` ranges, and otherwise
/// the least distance from the end of one of these ranges up to the byte. Compilers vectorize the
/// loops of this function.
#[inline(always)]
fn past(ranges: &Ranges, most: usize, block: &[u8; 16]) -> u128 {
    let (mut past, mut k) = ([0u8; 16], 0);
    while k < 16 {
        let (mut least, mut n) = (255u8, 0);
        while n < most {
            let Range { lowest, length } = &ranges.0[n];
            let far = block[k]
                .wrapping_sub(lowest.0[k])
                .saturating_sub(length.0[k]);
            least = if far < least { far } else { least };
            n += 1;
        }
        past[k] = least;
        k += 1;
    }
    u128::from_le_bytes(past)
}

/// The searches for the first byte that a fast loop does not consume. They are associated functions
/// of the enum, so that the compiler puts them next to the enum's loop over match attempts.
pub(crate) trait Loops<'source>: Tables<'source> {
    /// The maximum number of ranges with which a search in this lexer compares each byte.
    const MOST: usize = Ranges::most(Self::RANGES);
    /// The bit mask for the number of a fast loop.
    const LOOP: usize = Self::MASKS.len() - 1;
    /// Whether the compiler vectorizes loops over 16 bytes.
    const VECTORS: bool = option_env!("LOGOS_VECTORS").is_some()
        && cfg!(any(target_feature = "sse2", target_feature = "neon"));

    /// Returns whether the fast loop with the number `number` consumes `byte`.
    #[inline(always)]
    fn stays(number: usize, byte: u8) -> bool {
        Self::MASKS[number & Self::LOOP][byte as usize][0] == 0
    }

    /// Returns the byte offset of the first byte at or after `from` that the fast loop with the
    /// number `number` does not consume, or the end of the input if there is no such byte. The
    /// search after the first eight bytes is called out of line, so that all registers are
    /// available to the loop over match attempts.
    #[inline(always)]
    fn stop(number: usize, bytes: &[u8], from: usize) -> usize {
        let Some(rest) = bytes.get(from..) else {
            return from;
        };
        let mask = &Self::MASKS[number & Self::LOOP];
        let Some(block) = rest.first_chunk::<8>() else {
            return Self::stop_late(Self::MASKS, number, bytes, from);
        };
        let bits = bits(mask, block);
        if bits == 0 {
            return Self::stop_far(Self::MASKS, number, bytes, from + 8);
        }
        from + bits.trailing_zeros() as usize
    }

    /// Like [`Loops::stop`], for the bytes after the first eight. Each of the first four fast loops
    /// has its own function, which a branch selects, so that the search does not wait for a load
    /// from a table. The caller passes the masks, so that the codegen unit of this function needs
    /// no copy of the masks.
    #[inline(never)]
    fn stop_far(masks: &'static [Mask], number: usize, bytes: &[u8], from: usize) -> usize {
        match number {
            0 => Self::stop_by::<0>(masks, bytes, from),
            1 => Self::stop_by::<1>(masks, bytes, from),
            2 => Self::stop_by::<2>(masks, bytes, from),
            3 => Self::stop_by::<3>(masks, bytes, from),
            _ => Self::stop_by_loop(masks, number, bytes, from),
        }
    }

    #[inline(never)]
    fn stop_by<const NUMBER: usize>(masks: &'static [Mask], bytes: &[u8], from: usize) -> usize {
        Self::stop_by_loop(masks, NUMBER, bytes, from)
    }

    #[inline(always)]
    fn stop_by_loop(masks: &'static [Mask], number: usize, bytes: &[u8], from: usize) -> usize {
        let Some(mut rest) = bytes.get(from..) else {
            return from;
        };
        let ranges = &Self::RANGES[number & Self::LOOP];
        if !Self::VECTORS || ranges.1 > Self::MOST {
            return Self::stop_by_masks(masks, number, bytes, from);
        }
        while let Some((blocks, tail)) = rest.split_first_chunk::<32>() {
            let (Some(first), Some(last)) = (blocks.first_chunk(), blocks.last_chunk()) else {
                break;
            };
            let first = past(ranges, Self::MOST, first);
            let last = past(ranges, Self::MOST, last);
            let at = bytes.len() - rest.len();
            if first | last != 0 {
                return match first {
                    0 => at + 16 + last.trailing_zeros() as usize / 8,
                    _ => at + first.trailing_zeros() as usize / 8,
                };
            }
            rest = tail;
        }
        while let Some((block, tail)) = rest.split_first_chunk::<16>() {
            let past = past(ranges, Self::MOST, block);
            if past != 0 {
                return bytes.len() - rest.len() + past.trailing_zeros() as usize / 8;
            }
            rest = tail;
        }
        Self::stop_late(masks, number, bytes, bytes.len() - rest.len())
    }

    #[inline(never)]
    fn stop_by_masks(masks: &'static [Mask], number: usize, bytes: &[u8], from: usize) -> usize {
        let Some(mut rest) = bytes.get(from..) else {
            return from;
        };
        let mask = &masks[number & Self::LOOP];
        while let Some((block, tail)) = rest.split_first_chunk::<8>() {
            let bits = bits(mask, block);
            if bits != 0 {
                return bytes.len() - rest.len() + bits.trailing_zeros() as usize;
            }
            rest = tail;
        }
        Self::stop_late(masks, number, bytes, bytes.len() - rest.len())
    }

    /// Like [`Loops::stop`], one byte at a time.
    #[cold]
    #[inline(never)]
    fn stop_late(masks: &'static [Mask], number: usize, bytes: &[u8], from: usize) -> usize {
        let (mask, mut at) = (&masks[number & Self::LOOP], from);
        while at < bytes.len() && mask[bytes[at] as usize][0] == 0 {
            at += 1;
        }
        at
    }
}

impl<'source, T: Tables<'source>> Loops<'source> for T {}
