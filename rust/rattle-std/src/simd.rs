//! Replaces Rattle's `std::simd`, which corresponds to Rust's portable module `std::simd`: vectors
//! of numbers.
//!
//! A vector is an array. Operations that would be slow as loops call functions of `blocks` for 16
//! bytes at a time. These functions use vector instructions on x86-64 and 64-bit ARM, and loops on
//! other machines.

mod blocks;

use core::ops::{BitAnd, BitOr, Shr};

/// The types of vectors that erased files import.
pub mod prelude {
    pub use super::{u8x16, u8x32, u8x64, u32x16};
}

/// A vector of `N` numbers.
#[derive(Clone, Copy, Debug, PartialEq, Eq)]
pub struct Simd<T, const N: usize>([T; N]);

/// A vector of 16 bytes.
#[allow(non_camel_case_types)]
pub type u8x16 = Simd<u8, 16>;

/// A vector of 32 bytes.
#[allow(non_camel_case_types)]
pub type u8x32 = Simd<u8, 32>;

/// A vector of 64 bytes.
#[allow(non_camel_case_types)]
pub type u8x64 = Simd<u8, 64>;

/// A vector of 16 words of 32 bits.
#[allow(non_camel_case_types)]
pub type u32x16 = Simd<u32, 16>;

/// The set of the entries for which a comparison of two vectors holds. The vectors have at most 64
/// entries.
#[derive(Clone, Copy, Debug, PartialEq, Eq)]
pub struct Mask<const N: usize>(u64);

impl<const N: usize> Mask<N> {
    /// Returns the number whose bit `k` is set if the comparison holds for the entry at the index
    /// `k`.
    #[inline(always)]
    pub fn to_bitmask(self) -> u64 {
        self.0
    }
}

impl<T: Copy, const N: usize> Simd<T, N> {
    /// Returns the vector of the numbers in `array`.
    #[inline(always)]
    pub fn from_array(array: [T; N]) -> Self {
        Simd(array)
    }

    /// Returns the vector of the first `N` numbers of `slice`.
    ///
    /// # Panics
    ///
    /// Panics if the slice has fewer than `N` numbers.
    #[inline(always)]
    pub fn from_slice(slice: &[T]) -> Self {
        match slice.first_chunk::<N>() {
            Some(numbers) => Simd(*numbers),
            None => panic!("a slice has too few numbers for a vector"),
        }
    }

    /// Returns the vector of `N` numbers that all equal `value`.
    #[inline(always)]
    pub fn splat(value: T) -> Self {
        Simd([value; N])
    }

    /// Returns the numbers of the vector as an array.
    #[inline(always)]
    pub fn to_array(self) -> [T; N] {
        self.0
    }

    /// Returns the vector of the numbers at `indices` in the concatenation of this vector and
    /// `other`.
    ///
    /// # Panics
    ///
    /// Panics if an index is not less than `2 * N`.
    #[inline(always)]
    pub fn shuffle<const M: usize>(self, other: Self, indices: [usize; M]) -> Simd<T, M> {
        // Known at compile time, so one of the two branches remains.
        if M == 2 * N && have_steps(&indices, 0, 1) {
            let mut both = [self.0[0]; M];
            both[..N].copy_from_slice(&self.0);
            both[N..].copy_from_slice(&other.0);
            return Simd(both);
        }
        Simd(core::array::from_fn(|at| {
            let k = indices[at];
            if k < N { self.0[k] } else { other.0[k - N] }
        }))
    }
}

/// Returns whether `indices` begin with `first`, and each following index is the preceding index
/// plus `step`. There must be 16, 32 or 64 indices. The compiler can evaluate this function for
/// constant indices, but could not evaluate nested loops.
#[inline(always)]
fn have_steps<const M: usize>(indices: &[usize; M], first: usize, step: usize) -> bool {
    const { assert!(M == 16 || M == 32 || M == 64) };
    have_16_steps(indices, 0, first, step)
        && (M < 32 || have_16_steps(indices, 16, first, step))
        && (M < 64 || have_16_steps(indices, 32, first, step))
        && (M < 64 || have_16_steps(indices, 48, first, step))
}

/// Returns whether each of the 16 elements of `indices` from the index `at` on equals `first` plus
/// `step` times the index of the element.
#[inline(always)]
fn have_16_steps(indices: &[usize], at: usize, first: usize, step: usize) -> bool {
    let mut have = true;
    for (k, index) in indices[at..at + 16].iter().enumerate() {
        have &= *index == first + step * (at + k);
    }
    have
}

impl<const N: usize> Simd<u8, N> {
    /// Returns the 16 bytes of the vector from the index `at` on.
    #[inline(always)]
    fn block(&self, at: usize) -> &[u8; 16] {
        match self.0[at..].first_chunk() {
            Some(block) => block,
            None => unreachable!(),
        }
    }

    /// Applies `f` to each block of 16 bytes of this vector and the block of `other` at the same
    /// index. Returns the vector of the results.
    #[inline(always)]
    fn by_blocks(self, other: Self, f: impl Fn([u8; 16], [u8; 16]) -> [u8; 16]) -> Self {
        let mut made = [0; N];
        for (at, block) in made.chunks_exact_mut(16).enumerate() {
            block.copy_from_slice(&f(*self.block(16 * at), *other.block(16 * at)));
        }
        Simd(made)
    }

    /// Returns the set of the entries that are equal in this vector and `other`.
    #[inline(always)]
    pub fn simd_eq(self, other: Self) -> Mask<N> {
        let mut bits = 0;
        for at in 0..N / 16 {
            let equal = blocks::equal(*self.block(16 * at), *other.block(16 * at));
            bits |= u64::from(equal) << (16 * at);
        }
        Mask(bits)
    }

    /// Returns the set of the entries that differ in this vector and `other`.
    #[inline(always)]
    pub fn simd_ne(self, other: Self) -> Mask<N> {
        Mask(self.simd_eq(other).0 ^ (u64::MAX >> (64 - N)))
    }

    /// Returns the vector of the bytes at `indices` in this vector. Both vectors have 16 bytes, and
    /// the indices must be below 16.
    #[inline(always)]
    pub fn swizzle_dyn_within<const M: usize>(self, indices: Self) -> Self {
        const { assert!(N == 16 && M == 16) };
        self.by_blocks(indices, blocks::at)
    }

    /// Returns the vector of the bytes at `indices` in this vector.
    ///
    /// # Panics
    ///
    /// Panics if an index is not less than `N`.
    #[inline(always)]
    pub fn swizzle<const M: usize>(self, indices: [usize; M]) -> Simd<u8, M> {
        Simd(indices.map(|k| self.0[k]))
    }
}

/// The bytes of 16 words, the lowest byte of each word first.
#[derive(Clone, Copy, Debug)]
pub struct WordBytes([u32; 16]);

impl Simd<u32, 16> {
    /// Returns the bytes of the words, the lowest byte of each word first.
    #[inline(always)]
    pub fn to_le_bytes(self) -> WordBytes {
        WordBytes(self.0)
    }
}

impl WordBytes {
    /// Returns the vector of the bytes at `indices`.
    ///
    /// # Panics
    ///
    /// Panics if an index is not less than 64.
    #[inline(always)]
    pub fn swizzle(self, indices: [usize; 16]) -> Simd<u8, 16> {
        // Known at compile time, so one of the two branches remains.
        if have_steps(&indices, 3, 4) {
            return Simd(blocks::tops(self.0));
        }
        Simd(core::array::from_fn(|at| {
            let k = indices[at];
            (self.0[k / 4] >> (8 * (k % 4))) as u8
        }))
    }
}

macro_rules! operators {
    ($($operator:ident $method:ident $function:ident;)*) => {
        $(impl<const N: usize> $operator for Simd<u8, N> {
            type Output = Self;

            #[inline(always)]
            fn $method(self, other: Self) -> Self {
                self.by_blocks(other, blocks::$function)
            }
        })*
    };
}

operators! {
    BitAnd bitand and;
    BitOr bitor or;
    Shr shr shifted;
}
