//! Implements operations on blocks of 16 bytes with the instructions of the machine. Used by
//! `simd`.
//!
//! This file has all `unsafe` code of the crate: calls of instructions that the machine is known to
//! have.

#![allow(unsafe_code)]

#[cfg(target_arch = "aarch64")]
pub(super) use arm::{and, at, equal, or, shifted, tops};
#[cfg(not(any(target_arch = "x86_64", target_arch = "aarch64")))]
pub(super) use plain::{and, at, equal, or, shifted, tops};
#[cfg(target_arch = "x86_64")]
pub(super) use x86::{and, at, equal, or, shifted, tops};

/// The operations, implemented with loops. Tests compare the other implementations with these
/// loops.
#[cfg_attr(any(target_arch = "x86_64", target_arch = "aarch64"), allow(dead_code))]
pub(super) mod plain {
    use core::array::from_fn;

    /// Returns the bitwise AND of two blocks.
    #[inline(always)]
    pub fn and(a: [u8; 16], b: [u8; 16]) -> [u8; 16] {
        (u128::from_ne_bytes(a) & u128::from_ne_bytes(b)).to_ne_bytes()
    }

    /// Returns the bitwise OR of two blocks.
    #[inline(always)]
    pub fn or(a: [u8; 16], b: [u8; 16]) -> [u8; 16] {
        (u128::from_ne_bytes(a) | u128::from_ne_bytes(b)).to_ne_bytes()
    }

    /// Returns `bytes`, each shifted right by the number of bits at its index in `by`. The numbers
    /// in `by` must be below 8.
    #[inline(always)]
    pub fn shifted(bytes: [u8; 16], by: [u8; 16]) -> [u8; 16] {
        from_fn(|k| bytes[k] >> by[k])
    }

    /// Returns the elements of `bytes` at `indices`. The indices must be below 16.
    #[inline(always)]
    pub fn at(bytes: [u8; 16], indices: [u8; 16]) -> [u8; 16] {
        indices.map(|k| bytes[usize::from(k % 16)])
    }

    /// Returns the number whose bit `k` is set if the bytes of the two blocks at the index `k` are
    /// equal.
    #[inline(always)]
    pub fn equal(a: [u8; 16], b: [u8; 16]) -> u16 {
        let mut bits = 0;
        for k in 0..16 {
            bits |= u16::from(a[k] == b[k]) << k;
        }
        bits
    }

    /// Returns the highest byte of each word.
    #[inline(always)]
    pub fn tops(words: [u32; 16]) -> [u8; 16] {
        words.map(|word| (word >> 24) as u8)
    }
}

/// The operations, implemented with instructions of x86-64: SSE2, which every x86-64 machine has,
/// and `pshufb` if the machine has SSSE3.
#[cfg(target_arch = "x86_64")]
mod x86 {
    use core::arch::asm;
    use core::arch::x86_64::*;
    use core::mem::transmute;
    use core::sync::atomic::{AtomicBool, Ordering::Relaxed};
    use std::arch::is_x86_feature_detected;

    #[inline(always)]
    fn vector(bytes: [u8; 16]) -> __m128i {
        // SAFETY: both are 16 bytes, and each value of them is valid.
        unsafe { transmute(bytes) }
    }

    #[inline(always)]
    fn bytes(vector: __m128i) -> [u8; 16] {
        // SAFETY: both are 16 bytes, and each value of them is valid.
        unsafe { transmute(vector) }
    }

    #[inline(always)]
    pub fn and(a: [u8; 16], b: [u8; 16]) -> [u8; 16] {
        // SAFETY: each x86-64 has SSE2.
        bytes(unsafe { _mm_and_si128(vector(a), vector(b)) })
    }

    #[inline(always)]
    pub fn or(a: [u8; 16], b: [u8; 16]) -> [u8; 16] {
        // SAFETY: each x86-64 has SSE2.
        bytes(unsafe { _mm_or_si128(vector(a), vector(b)) })
    }

    #[inline(always)]
    pub fn shifted(shown: [u8; 16], by: [u8; 16]) -> [u8; 16] {
        let count = by[0];
        if by != [count; 16] || count > 7 {
            return super::plain::shifted(shown, by);
        }
        // There is no shift of bytes: words are shifted, and the bits from the next byte cleared.
        // SAFETY: each x86-64 has SSE2.
        let words = unsafe { _mm_srl_epi16(vector(shown), _mm_cvtsi32_si128(i32::from(count))) };
        and(bytes(words), [0xFF >> count; 16])
    }

    /// Whether the machine is already known to have SSSE3.
    static HAS_SHUFFLE: AtomicBool = AtomicBool::new(false);

    #[inline(always)]
    pub fn at(table: [u8; 16], indices: [u8; 16]) -> [u8; 16] {
        if !HAS_SHUFFLE.load(Relaxed) {
            return bytes(at_first(vector(table), vector(indices)));
        }
        let mut found = vector(table);
        // The intrinsic would be a call if the crate is compiled for machines without SSSE3.
        // SAFETY: the machine has SSSE3. The instruction changes only its first operand.
        unsafe {
            asm!(
                "pshufb {found}, {indices}",
                found = inout(xmm_reg) found,
                indices = in(xmm_reg) vector(indices),
                options(pure, nomem, nostack, preserves_flags),
            );
        }
        bytes(found)
    }

    /// Returns the result of `at`, computed with a loop. Sets `HAS_SHUFFLE` if the machine has
    /// SSSE3.
    #[cold]
    #[inline(never)]
    fn at_first(table: __m128i, indices: __m128i) -> __m128i {
        HAS_SHUFFLE.store(is_x86_feature_detected!("ssse3"), Relaxed);
        vector(super::plain::at(bytes(table), bytes(indices)))
    }

    #[inline(always)]
    pub fn equal(a: [u8; 16], b: [u8; 16]) -> u16 {
        // SAFETY: each x86-64 has SSE2.
        unsafe { _mm_movemask_epi8(_mm_cmpeq_epi8(vector(a), vector(b))) as u16 }
    }

    #[inline(always)]
    pub fn tops(words: [u32; 16]) -> [u8; 16] {
        // SAFETY: both are 64 bytes, and each value of them is valid.
        let [a, b, c, d]: [__m128i; 4] = unsafe { transmute(words) };
        // SAFETY: each x86-64 has SSE2.
        bytes(unsafe {
            let top = |four| _mm_srli_epi32::<24>(four);
            let front = _mm_packs_epi32(top(a), top(b));
            let back = _mm_packs_epi32(top(c), top(d));
            _mm_packus_epi16(front, back)
        })
    }
}

/// The operations, implemented with instructions of 64-bit ARM: NEON, which every 64-bit ARM
/// machine has.
#[cfg(target_arch = "aarch64")]
mod arm {
    use core::arch::aarch64::*;
    use core::mem::transmute;

    #[inline(always)]
    fn vector(bytes: [u8; 16]) -> uint8x16_t {
        // SAFETY: each 64-bit ARM has NEON, and 16 bytes are read.
        unsafe { vld1q_u8(bytes.as_ptr()) }
    }

    #[inline(always)]
    fn bytes(vector: uint8x16_t) -> [u8; 16] {
        // SAFETY: both are 16 bytes, and each value of them is valid.
        unsafe { transmute(vector) }
    }

    pub use super::plain::{and, or, tops};

    #[inline(always)]
    pub fn shifted(shown: [u8; 16], by: [u8; 16]) -> [u8; 16] {
        super::plain::shifted(shown, by)
    }

    #[inline(always)]
    pub fn at(table: [u8; 16], indices: [u8; 16]) -> [u8; 16] {
        // SAFETY: each 64-bit ARM has NEON.
        bytes(unsafe { vqtbl1q_u8(vector(table), vector(indices)) })
    }

    #[inline(always)]
    pub fn equal(a: [u8; 16], b: [u8; 16]) -> u16 {
        const BITS: [u8; 16] = [1, 2, 4, 8, 16, 32, 64, 128, 1, 2, 4, 8, 16, 32, 64, 128];
        // SAFETY: each 64-bit ARM has NEON.
        unsafe {
            let equal = vandq_u8(vceqq_u8(vector(a), vector(b)), vector(BITS));
            let front = vaddv_u8(vget_low_u8(equal));
            let back = vaddv_u8(vget_high_u8(equal));
            u16::from_le_bytes([front, back])
        }
    }
}
