//! Replaces the kit's `itoa`: the conversion of numbers to decimal digits.

/// The two decimal digits of each number below 100.
static PAIRS: [[u8; 2]; 100] = pairs();

const fn pairs() -> [[u8; 2]; 100] {
    let mut pairs = [[0; 2]; 100];
    let mut number = 0;
    while number < 100 {
        pairs[number] = [b'0' + (number / 10) as u8, b'0' + (number % 10) as u8];
        number += 1;
    }
    pairs
}

/// Writes the decimal digits of `number` to the bytes of `buf` that end at the index `end`. Returns
/// the index of the first digit. The other bytes stay unchanged.
///
/// # Panics
///
/// Panics if there are more digits than bytes before `end`, or if `end` is greater than the length
/// of `buf`.
#[inline(always)]
pub fn write_digits(number: u64, buf: &mut [u8], end: usize) -> usize {
    // A single check of the room suffices for all digits of a number that has at most eight.
    if number < 100_000_000
        && let Some([a, b, c, d, e, f, g, h]) = buf[..end].last_chunk_mut()
    {
        let number = number as u32;
        if number < 10_000 {
            return end - 4 + write_four(number, [e, f, g, h]);
        }
        let low = number % 10_000;
        ([*e, *f], [*g, *h]) = (pair(low / 100), pair(low % 100));
        return end - 8 + write_four(number / 10_000, [a, b, c, d]);
    }
    let from = write_each(number, buf, end);
    // With this the compiler knows the range of the digits, and can omit checks of the caller.
    assert!(from < end && end - from <= 20);
    from
}

/// Returns the two decimal digits of `number`, which must be below 100.
#[inline(always)]
fn pair(number: u32) -> [u8; 2] {
    PAIRS[number as usize]
}

/// Writes the decimal digits of `number`, which must be below 10,000, to the end of the four bytes.
/// Returns the number of bytes before the digits.
#[inline(always)]
fn write_four(number: u32, [a, b, c, d]: [&mut u8; 4]) -> usize {
    if number < 100 {
        return 2 + write_two(number, [c, d]);
    }
    [*c, *d] = pair(number % 100);
    write_two(number / 100, [a, b])
}

/// Writes the decimal digits of `number`, which must be below 100, to the end of the two bytes.
/// Returns the number of bytes before the digits.
#[inline(always)]
fn write_two(number: u32, [a, b]: [&mut u8; 2]) -> usize {
    if number < 10 {
        *b = b'0' + number as u8;
        return 1;
    }
    [*a, *b] = pair(number);
    0
}

/// Writes the decimal digits of `number` as `write_digits` does, but one digit at a time.
#[cold]
#[inline(never)]
fn write_each(number: u64, buf: &mut [u8], end: usize) -> usize {
    let (mut left, mut at) = (number, end);
    loop {
        at -= 1;
        buf[at] = b'0' + (left % 10) as u8;
        left /= 10;
        if left == 0 {
            return at;
        }
    }
}
