//! Decodes the ranges of sets of characters. The sets that are searched often are decoded at
//! compile time. Used by `unicode`, `unicode_ident` and `unicode_width`.

use crate::alloc::{AllocError, Global};
use crate::crates::unicode_tables as tables;
use crate::crates::unicode_tables::{OFFSETS, RANGES};
use crate::vec::Vec;
use core::cmp::Ordering;

/// Declares a set of characters whose ranges are decoded at compile time.
macro_rules! set {
    ($name:ident) => {
        pub(crate) static $name: [(u32, u32); count(tables::$name)] = ranges(tables::$name);
    };
}

set!(ALPHABETIC);
set!(NUMBER);
set!(XID_START);
set!(XID_CONTINUE);

/// Decodes the number that begins at the index `at` of `table`. Returns the number, and the index
/// of the next number.
pub(crate) const fn number_at(table: &[u8], mut at: usize) -> (u32, usize) {
    let (mut number, mut shift) = (0, 0);
    while table[at] >= b']' {
        number |= ((table[at] - b']') as u32) << shift;
        shift += 5;
        at += 1;
    }
    (number | ((table[at] - b'0') as u32) << shift, at + 1)
}

/// Returns how many ranges the set with the number `set` has.
const fn count(set: usize) -> usize {
    let mut at = OFFSETS[set] as usize;
    let mut numbers = 0;
    while at < OFFSETS[set + 1] as usize {
        (_, at) = number_at(RANGES, at);
        numbers += 1;
    }
    numbers / 2
}

/// Decodes the range that begins at the index `at` of the table `RANGES`. Returns the range, and
/// the index of the next range. `from` is the character after the preceding range.
const fn range_at(at: usize, from: u32) -> ((u32, u32), usize) {
    let (gap, at) = number_at(RANGES, at);
    let (more, at) = number_at(RANGES, at);
    ((from + gap, from + gap + more), at)
}

/// Decodes the ranges of the set with the number `set` at compile time.
const fn ranges<const COUNT: usize>(set: usize) -> [(u32, u32); COUNT] {
    let mut ranges = [(0, 0); COUNT];
    let (mut range, mut at, mut from) = (0, OFFSETS[set] as usize, 0);
    while range < COUNT {
        (ranges[range], at) = range_at(at, from);
        from = ranges[range].1 + 1;
        range += 1;
    }
    ranges
}

/// Returns the ranges of the set with the number `set`, or `AllocError` if memory runs out.
pub(super) fn ranges_of(alloc: Global, set: usize) -> Result<Vec<(u32, u32)>, AllocError> {
    let mut ranges = Vec::new(alloc);
    let (mut at, mut from) = (OFFSETS[set] as usize, 0);
    while at < OFFSETS[set + 1] as usize {
        let (range, next) = range_at(at, from);
        ranges.push(range)?;
        (at, from) = (next, range.1 + 1);
    }
    Ok(ranges)
}

/// Returns whether the sorted ranges `ranges` contain the character `c`.
pub(crate) fn contains(ranges: &[(u32, u32)], c: char) -> bool {
    let code = c as u32;
    let place = |&(first, last): &(u32, u32)| match (code < first, last < code) {
        (true, _) => Ordering::Greater,
        (_, true) => Ordering::Less,
        _ => Ordering::Equal,
    };
    ranges.binary_search_by(place).is_ok()
}
