//! Computes the hashes of keys. Used by `indexmap`.

use core::hash::{BuildHasher, Hasher};
use std::hash::RandomState;

/// A hash of a sequence of words.
///
/// Each word is combined with the hash of the preceding words by exclusive or. The result is
/// multiplied by a random number, and the halves of the product are combined by exclusive or. For
/// the short keys of the crates, and for bytes that are hashed one at a time, this hash is faster
/// than the default hash of Rust's standard library.
///
/// The initial value of the hash is also random, so that keys with equal hashes are hard to find.
#[derive(Clone, Copy)]
pub(super) struct Folded {
    hash: u64,
    factor: u64,
}

impl Folded {
    /// Returns the hash of an empty sequence, with new random numbers.
    pub(super) fn new() -> Folded {
        let state = RandomState::new();
        Folded {
            hash: state.hash_one(0),
            factor: state.hash_one(1) | 1,
        }
    }
}

impl Hasher for Folded {
    #[inline]
    fn write_u64(&mut self, word: u64) {
        let product = u128::from(self.hash ^ word) * u128::from(self.factor);
        self.hash = product as u64 ^ (product >> 64) as u64;
    }

    #[inline]
    fn write_usize(&mut self, word: usize) {
        self.write_u64(word as u64);
    }

    #[inline]
    fn write_u32(&mut self, word: u32) {
        self.write_u64(word.into());
    }

    #[inline]
    fn write_u8(&mut self, byte: u8) {
        self.write_u64(byte.into());
    }

    #[inline]
    fn write(&mut self, bytes: &[u8]) {
        let (words, rest) = bytes.as_chunks();
        for word in words {
            self.write_u64(u64::from_le_bytes(*word));
        }
        rest.iter().for_each(|byte| self.write_u8(*byte));
    }

    #[inline]
    fn finish(&self) -> u64 {
        self.hash
    }
}
