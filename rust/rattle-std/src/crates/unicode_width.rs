//! Replaces the kit's `unicode_width`: the number of columns of a character on a terminal.

use super::unicode::number_at;
use super::unicode_tables::WIDTHS;

/// A character with a width on a terminal.
pub trait UnicodeWidthChar {
    /// Returns the number of columns of the character on a terminal, or `None` for a control
    /// character.
    fn width(self) -> Option<usize>;
}

/// The number of runs of consecutive characters with equal width.
const RUNS: usize = count();

/// The last character of each run, and the width of the run's characters. The width 4 means that
/// the characters have no width.
static WIDTH_RUNS: [(u32, u8); RUNS] = runs();

const fn count() -> usize {
    let (mut at, mut runs) = (0, 0);
    while at < WIDTHS.len() {
        (_, at) = number_at(WIDTHS, at);
        (_, at) = number_at(WIDTHS, at);
        runs += 1;
    }
    runs
}

const fn runs() -> [(u32, u8); RUNS] {
    let mut runs = [(0, 0); RUNS];
    let (mut run, mut at, mut from) = (0, 0, 0);
    while run < RUNS {
        let (length, after) = number_at(WIDTHS, at);
        let (width, next) = number_at(WIDTHS, after);
        from += length;
        runs[run] = (from - 1, width as u8);
        at = next;
        run += 1;
    }
    runs
}

impl UnicodeWidthChar for char {
    fn width(self) -> Option<usize> {
        if matches!(self, ' '..='~') {
            return Some(1);
        }
        let run = WIDTH_RUNS.partition_point(|(last, _)| *last < self as u32);
        match WIDTH_RUNS[run].1 {
            4 => None,
            width => Some(usize::from(width)),
        }
    }
}
