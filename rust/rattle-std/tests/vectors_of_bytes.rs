//! Vectors of `std::simd`, each method compared with a loop over its bytes.

use rattle_std::simd::prelude::*;

/// Returns bytes of all values, by a generator of Lehmer's.
fn bytes<const N: usize>(seed: u64) -> [u8; N] {
    let mut state = seed * 2 + 1;
    std::array::from_fn(|_| {
        state = state.wrapping_mul(0xDA94_2042_E4DD_58B5);
        (state >> 56) as u8
    })
}

#[test]
fn operators_and_comparisons() {
    for seed in 0..200 {
        let (a, mut b) = (bytes::<64>(seed), bytes::<64>(seed + 1000));
        b[seed as usize % 64] = a[seed as usize % 64];
        let (x, y) = (u8x64::from_array(a), u8x64::from_array(b));
        assert_eq!((x & y).to_array(), std::array::from_fn(|k| a[k] & b[k]));
        assert_eq!((x | y).to_array(), std::array::from_fn(|k| a[k] | b[k]));
        let equal = (0..64).map(|k| u64::from(a[k] == b[k]) << k).sum::<u64>();
        assert_eq!(
            (x.simd_eq(y).to_bitmask(), x.simd_ne(y).to_bitmask()),
            (equal, !equal)
        );
        let (x, y) = (u8x16::from_slice(&a), u8x16::from_slice(&b));
        assert_eq!(
            (x.simd_eq(y).to_bitmask(), x.simd_ne(y).to_bitmask()),
            (equal & 0xFFFF, !equal & 0xFFFF)
        );
    }
}

#[test]
fn shifts() {
    for by in 0..8 {
        let a = bytes::<16>(by);
        let shifted = u8x16::from_array(a) >> u8x16::splat(by as u8);
        assert_eq!(shifted.to_array(), a.map(|byte| byte >> by));
    }
    let by = std::array::from_fn(|k| (k % 8) as u8);
    let shifted = u8x16::splat(0xFF) >> u8x16::from_array(by);
    assert_eq!(shifted.to_array(), by.map(|by| 0xFF >> by));
}

#[test]
fn lookups() {
    for seed in 0..200 {
        let (table, indices) = (
            bytes::<16>(seed),
            bytes::<16>(seed + 500).map(|byte| byte % 16),
        );
        let found = u8x16::from_array(table).swizzle_dyn_within::<16>(u8x16::from_array(indices));
        assert_eq!(found.to_array(), indices.map(|index| table[index as usize]));
    }
}

#[test]
fn shuffles() {
    let (a, b) = (bytes::<16>(1), bytes::<16>(2));
    let (x, y) = (u8x16::from_array(a), u8x16::from_array(b));
    let both: u8x32 = x.shuffle(y, std::array::from_fn(|k| k));
    assert_eq!(
        (&both.to_array()[..16], &both.to_array()[16..]),
        (a.as_slice(), b.as_slice())
    );
    let mixed = x.shuffle(y, std::array::from_fn::<_, 16, _>(|k| 31 - 2 * k));
    assert_eq!(
        mixed.to_array(),
        std::array::from_fn(|k| both.to_array()[31 - 2 * k])
    );
    let back: u8x16 = both.swizzle(std::array::from_fn(|k| 31 - k));
    assert_eq!(back.to_array(), std::array::from_fn(|k| b[15 - k]));
}

#[test]
fn bytes_of_words() {
    let words: [u32; 16] = std::array::from_fn(|k| 0x0102_0304u32.wrapping_mul(7 * k as u32 + 61));
    let all = u32x16::from_slice(&words).to_le_bytes();
    for first in 0..4 {
        let some = all.swizzle(std::array::from_fn(|k| 4 * k + first));
        assert_eq!(some.to_array(), words.map(|word| word.to_le_bytes()[first]));
    }
}

#[test]
#[should_panic(expected = "too few numbers")]
fn a_slice_that_is_too_short() {
    u8x16::from_slice(&[0; 15]);
}
