//! The rows that the loop over match attempts reads. Used by `layout` and `run`.
//!
//! A row has an entry for each byte and for the end of the input, or for each class. An entry below
//! [`STAYS`] leads to a state, and is the row offset of this state. In any other entry, the upper
//! bits are the kind of the entry, and the lower bits are the number of a leaf or of a fast loop.

use crate::data::{Unpacked, SYMBOLS};
use crate::layout::{Inside, Layout, Sets, CONTINUATIONS, FIRST_CONTINUATION, NO_INSIDE};

const KIND_BIT: u32 = 29;
const ONE_KIND: u32 = 1 << KIND_BIT;
/// The bits of an entry that contain the number of a leaf or of a fast loop.
pub(crate) const NUMBERS: u32 = ONE_KIND - 1;
/// The kind of an entry whose byte is consumed by the fast loop with the entry's number.
pub(crate) const STAYS: u32 = ONE_KIND;
/// The bit that is added to [`STAYS`] if each of the next bytes has its own branch.
pub(crate) const SINGLY: u32 = ONE_KIND / 2;
/// The kind of an entry before whose byte a match of the entry's leaf ends. The next higher kind is
/// used for leaves whose matches are skipped without a callback.
pub(crate) const ENDS: u32 = 2 * ONE_KIND;
/// The kind of an entry after whose byte a match of the entry's leaf ends. No byte continues this
/// match. The next higher kind is used for leaves whose matches are skipped without a callback.
pub(crate) const CLOSES: u32 = 4 * ONE_KIND;
/// The entry of a byte that leads to no state, and before which no match ends.
pub(crate) const NOWHERE: u32 = 6 * ONE_KIND;
/// The entry of the end of the input if the end of the input leads to a state. Another attempt then
/// finds the last match.
pub(crate) const AGAIN: u32 = 7 * ONE_KIND;

/// The value for a state without a last match.
pub(crate) const NEVER: u32 = 1;
/// The value for a state in which the last match depends on the bytes.
pub(crate) const VARIES: u32 = 2;
/// The bit of a last match whose distance is counted from the start of the attempt.
pub(crate) const FORTH: u32 = 128;
/// The maximum distance of a last match that is recorded, in bytes.
const FARTHEST: u32 = 30;

impl<const STATES: usize, const RUNS: usize> Unpacked<STATES, RUNS> {
    /// Returns the total number of entries of the rows. `entries` is the number of entries of the
    /// states without a row.
    pub(crate) const fn rows_len(&self, entries: usize) -> usize {
        self.insides_start() + entries
    }

    /// Returns the index in the rows at which the entries of the states without a row begin.
    const fn insides_start(&self) -> usize {
        let Layout {
            insides, is_text, ..
        } = self.layout;
        self.first_inside() + 256 + if is_text { 0 } else { insides }
    }

    /// Returns the offset of the first state without a row.
    const fn first_inside(&self) -> usize {
        self.layout.rows * self.layout.columns
    }

    /// Returns the rows of all states. `insides` contains the steps of the states without a row.
    /// The last row is followed by additional entries, so that the offset of each state plus a byte
    /// or a class is the index of an entry.
    ///
    /// # Panics
    ///
    /// Panics if there are more than `N` entries, or if the number of entries or leaves is too
    /// large for an entry.
    pub(crate) const fn all_rows<const N: usize>(&self, insides: &[Inside]) -> [u32; N] {
        assert!(N >= self.insides_start(), "the number of the entries");
        assert!(self.insides_start() < STAYS as usize, "too many entries");
        assert!(self.data.leaves() <= NUMBERS as usize, "too many leaves");
        let (mut rows, mut state) = ([NOWHERE; N], 0);
        let (by_bytes, width, runs) = (self.data.by_bytes(), self.data.width, &self.runs);
        let (columns, mut entries) = (&self.of_classes, [NOWHERE; SYMBOLS]);
        while state < STATES {
            let (row, at) = (&self.rows[state], self.offset(state, 0) as usize);
            let is_inside = self.is_inside(state);
            let set = if is_inside {
                &insides[self.number[state] as usize - self.layout.rows]
            } else {
                &NO_INSIDE
            };
            if is_inside && set.mask == 0 {
                let [one, other] = self.steps_of(state);
                rows[set.first as usize] = self.entry(state, one);
                rows[set.first as usize + 1] = self.entry(state, other);
                state += 1;
                continue;
            }
            let (mut run, mut past, mut class) = (row.run, 0, 0);
            while class < width {
                past += runs[run].length;
                let entry = self.entry(state, runs[run].step);
                let end = past - row.passed;
                let to = if end > width { width } else { end };
                if by_bytes | is_inside {
                    while class < to {
                        entries[class] = entry;
                        class += 1;
                    }
                } else if entry != NOWHERE {
                    let mut column = columns[class] as usize;
                    while column <= columns[to - 1] as usize {
                        rows[at + column] = entry;
                        column += 1;
                    }
                }
                (class, run) = (to, run + 1);
            }
            let mut symbol = 0;
            while by_bytes && symbol < SYMBOLS {
                rows[at + symbol] = entries[self.classes[symbol] as usize];
                symbol += 1;
            }
            while is_inside && symbol < CONTINUATIONS {
                let class = self.classes[FIRST_CONTINUATION + symbol] as usize;
                rows[set.first as usize + symbol] = entries[class];
                symbol += 1;
            }
            state += 1;
        }
        self.with_characters(rows, 0, false)
    }

    /// Returns the steps of the states without a row, for match attempts.
    pub(crate) const fn row_sets(&self, lasts: &[u32]) -> Sets<STATES> {
        self.sets(self.insides_start(), lasts)
    }

    /// Returns the entry of the step `step` in `state`.
    pub(crate) const fn entry(&self, state: usize, step: usize) -> u32 {
        match step {
            0 if self.marks[state] % 2 == 0 => self.ended(self.marks[state], ENDS),
            0 => NOWHERE,
            1 => {
                // Inside of matches, and for small sets of bytes such as blanks, mostly as many
                // bytes stay as before.
                let row = &self.rows[state];
                let singly = self.marks[state] == 0 || row.staying <= 4;
                STAYS + singly as u32 * SINGLY + row.number as u32
            }
            _ => {
                let (next, mark) = (step - 2, self.marks[step - 2]);
                if mark == 0 || self.rows[next].leads {
                    return self.offset(next, self.first_inside());
                }
                self.ended(mark, if mark % 2 == 0 { CLOSES } else { ENDS })
            }
        }
    }

    /// Returns the entry of the kind `kind` for the mark `mark`, or [`NOWHERE`] for the mark 0.
    const fn ended(&self, mark: u32, kind: u32) -> u32 {
        if mark == 0 {
            return NOWHERE;
        }
        let leaf = mark / 2 - 1;
        kind + self.data.skips(leaf as usize) as u32 * ONE_KIND + leaf
    }

    /// Returns, for each state, the last match of an attempt that ends in the state with a byte
    /// that leads to no state.
    ///
    /// The value is [`NEVER`], [`VARIES`], or the sum of a distance and 256 times one more than the
    /// leaf. The distance is the number of bytes from the end of the match to the end of the
    /// attempt, or [`FORTH`] plus the number of bytes from the start of the attempt to the end of
    /// the match.
    pub(crate) const fn all_lasts(&self) -> [u32; STATES] {
        let (mut before, mut is_new) = ([[0; 3]; STATES], [false; STATES]);
        let (mut lasts, mut changed, runs) = ([0; STATES], true, &self.runs);
        before[self.data.root] = [NEVER, NEVER, FORTH];
        is_new[self.data.root] = true;
        while changed {
            changed = false;
            let mut state = 0;
            while state < STATES {
                if !is_new[state] {
                    state += 1;
                    continue;
                }
                is_new[state] = false;
                let row = &self.rows[state];
                let (last, after) = last_in(self.marks[state], row.staying > 0, before[state]);
                lasts[state] = last;
                let (mut run, mut left) = (row.run, self.data.width + row.passed);
                while left > 0 {
                    if runs[run].step >= 2 {
                        let next = runs[run].step - 2;
                        let [back, forth, since] = before[next];
                        if back != after[0] || forth != after[1] || since != after[2] {
                            let [one, two, three] = met(before[next], after);
                            if one != back || two != forth || three != since {
                                before[next] = [one, two, three];
                                (is_new[next], changed) = (true, true);
                            }
                        }
                    }
                    left = left.saturating_sub(runs[run].length);
                    run += 1;
                }
                state += 1;
            }
        }
        lasts
    }
}

/// The last match before a state, without the match of the state itself. The first number contains
/// the distance of the match from the state, the second number contains its distance from the start
/// of the attempt, and the third number is [`FORTH`] plus the number of bytes since the start of
/// the attempt. All numbers are 0 for a state to which no bytes are known to lead.
type Before = [u32; 3];

/// Returns the last match in a state, and the last match before each state to which the state
/// leads. `mark` is the mark of the state, `loops` is `true` if the state has a fast loop, and
/// `before` is the last match before the state.
const fn last_in(mark: u32, loops: bool, before: Before) -> (u32, Before) {
    let (leaf, late) = ((mark / 2) << 8, mark % 2);
    let [mut back, mut forth, mut since] = before;
    if loops {
        since = VARIES;
    }
    if mark == 0 {
        back = if loops && back > VARIES { VARIES } else { back };
    } else {
        back = if loops && late == 1 {
            VARIES
        } else {
            leaf | late
        };
        forth = if since < FORTH + late {
            VARIES
        } else {
            (leaf | since) - late
        };
    }
    let last = if back == VARIES { forth } else { back };
    if back > VARIES {
        back = if back & 255 < FARTHEST {
            back + 1
        } else {
            VARIES
        };
    }
    if since != VARIES {
        since = if since < FORTH + FARTHEST {
            since + 1
        } else {
            VARIES
        };
    }
    (last, [back, forth, since])
}

/// Returns the last match before a state to which two ways lead. `before` is the last match on one
/// way, and `after` is the last match on the other way.
const fn met(before: Before, after: Before) -> Before {
    let [back, forth, since] = before;
    [
        join(back, after[0]),
        join(forth, after[1]),
        join(since, after[2]),
    ]
}

const fn join(before: u32, after: u32) -> u32 {
    if before == 0 || before == after {
        after
    } else {
        VARIES
    }
}
