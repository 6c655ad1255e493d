//! The characters that lead from a state back to the same state, such as the characters of a
//! comment. Used by `data`, `layout`, `loops`, `rows` and `folded`.
//!
//! If all inputs are UTF-8, fast loops also consume characters of more than one byte. A fast loop
//! consumes the first byte of such a character only if all characters that begin with this byte
//! lead from the state back to the same state. The fast loop then also consumes the bytes that
//! continue a character, and the bytes that occur in no UTF-8 text. With these bytes, the consumed
//! bytes form fewer ranges.

use crate::data::{Unpacked, END, SYMBOLS};
use crate::layout::{continues, FIRST_CONTINUATION};

/// The first bytes of the characters of more than one byte that a fast loop consumes, as a set with
/// a bit for each byte from 0xC0 on.
pub(crate) type Leads = u64;
/// The empty set of first bytes.
pub(crate) const NO_LEADS: Leads = 0;

/// The lowest byte that has a bit in [`Leads`].
const FIRST_LEAD: usize = 0xC0;
/// The bytes that begin characters of two bytes.
const TWO: core::ops::Range<usize> = 0xC2..0xE0;
/// The bytes that begin characters of four bytes.
const FOUR: core::ops::Range<usize> = 0xF0..0xF5;
/// The set of the bytes from [`FIRST_LEAD`] on that occur in no UTF-8 text.
const NEVER: Leads = 0b11 | !0 << (FOUR.end - FIRST_LEAD);

/// Returns whether a fast loop consumes `byte` because of the characters that begin with the bytes
/// in `leads`.
pub(crate) const fn stays(leads: Leads, byte: usize) -> bool {
    leads != NO_LEADS
        && (continues(byte as u8) || byte >= FIRST_LEAD && leads >> (byte - FIRST_LEAD) & 1 == 1)
}

/// Returns whether a byte begins a character of more than one byte.
const fn is_lead(byte: usize) -> bool {
    byte >= TWO.start && byte < FOUR.end
}

/// Returns the set of the bytes that can follow the byte `lead` in UTF-8 text, with a bit for each
/// byte from 0x80 to 0xBF.
const fn second(lead: usize) -> u64 {
    match lead {
        0xE0 => !0 << 32,
        0xED => !0 >> 32,
        0xF0 => !0 << 16,
        0xF4 => !0 >> 48,
        _ => !0,
    }
}

impl<const STATES: usize, const RUNS: usize> Unpacked<STATES, RUNS> {
    /// Returns, for each state, the first bytes of the characters that the state's fast loop
    /// consumes. States that share a fast loop have equal sets. The sets of the root and of the
    /// states without a fast loop are empty. All sets are empty if, in a state that is not inside a
    /// character, a byte that continues a character leads to a state.
    pub(crate) const fn staying_leads(&self) -> [Leads; STATES] {
        let (mut by_loop, mut leads, mut state) = ([!NO_LEADS; STATES], [NO_LEADS; STATES], 0);
        while state < STATES {
            let row = &self.rows[state];
            if row.continues && !row.is_inside {
                return [NO_LEADS; STATES];
            }
            if row.staying > 0 {
                by_loop[row.number] &= self.leads_of(state);
            }
            state += 1;
        }
        while state > 0 {
            state -= 1;
            let row = &self.rows[state];
            if row.staying > 0 && state != self.data.root {
                leads[state] = by_loop[row.number];
            }
        }
        leads
    }

    /// Returns whether any fast loop consumes characters of more than one byte.
    pub(crate) const fn passes(&self) -> bool {
        let (mut all, mut state) = (NO_LEADS, 0);
        while state < STATES {
            all |= self.leads[state];
            state += 1;
        }
        all != NO_LEADS
    }

    /// Returns `rows` with the entries for the characters that fast loops consume. The rows begin
    /// at the index `head`. `folded` is `true` if `rows` contains folded rows.
    pub(crate) const fn with_characters<const N: usize>(
        &self,
        rows: [u32; N],
        head: usize,
        folded: bool,
    ) -> [u32; N] {
        let (mut rows, mut state, by_bytes) = (rows, 0, self.data.by_bytes());
        let over = self.of_classes[self.classes[FIRST_CONTINUATION] as usize] as usize;
        let columns = self.layout.columns;
        while self.layout.passes && state < STATES {
            let leads = self.leads[state];
            if self.is_inside(state) || by_bytes && leads == NO_LEADS {
                state += 1;
                continue;
            }
            let (offset, mut byte) = (self.offset(state, 0), FIRST_CONTINUATION);
            let stay = if folded { offset } else { self.entry(state, 1) };
            let at = head + offset as usize;
            if !by_bytes {
                // These bytes have a column of their own, which no class has.
                let is_none = leads == NO_LEADS;
                rows[at + columns - 1] = if is_none { rows[at + over] } else { stay };
                byte = if is_none { END } else { FIRST_LEAD };
            }
            while byte < END {
                if stays(leads, byte) && (by_bytes || is_lead(byte)) {
                    rows[at + self.layout.column[byte] as usize] = stay;
                }
                byte += 1;
            }
            state += 1;
        }
        rows
    }

    /// Returns the first bytes of the characters that lead from `state` back to `state`. If there
    /// are such characters, the set also contains the bytes that occur in no UTF-8 text.
    const fn leads_of(&self, state: usize) -> Leads {
        let (mut by_classes, mut class, row) = ([0; SYMBOLS], 0, &self.rows[state]);
        let (mut run, mut past) = (row.run, 0);
        while class < self.data.width {
            past += self.runs[run].length;
            while class < past - row.passed && class < self.data.width {
                by_classes[class] = self.runs[run].step;
                class += 1;
            }
            run += 1;
        }
        let (mut leads, mut byte) = (NO_LEADS, TWO.start);
        while byte < FOUR.end {
            let step = by_classes[self.classes[byte] as usize];
            if self.leads_back(state, byte, step) {
                leads |= 1 << (byte - FIRST_LEAD);
            }
            byte += 1;
        }
        if leads == NO_LEADS {
            return NO_LEADS;
        }
        leads | NEVER
    }

    /// Returns whether all characters that begin with the byte `lead` lead from `state` back to it
    /// without a match on the way. `step` is the step of `lead` in `state`.
    const fn leads_back(&self, state: usize, lead: usize, step: usize) -> bool {
        let mut left = 1 + (lead >= TWO.end) as usize + (lead >= FOUR.start) as usize;
        let (mut step, mut valid) = (step, second(lead));
        while left > 0 {
            if step < 2 || step - 2 == state || self.marks[step - 2] != 0 {
                return false;
            }
            let row = &self.rows[step - 2];
            if !row.is_inside
                || row.kinds == 3
                || row.bits & valid != 0 && row.bits & valid != valid
            {
                return false;
            }
            step = row.steps[(row.bits & valid != 0) as usize];
            (left, valid) = (left - 1, !0);
        }
        step == state + 2
    }
}
