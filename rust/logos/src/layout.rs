//! The layout of tables, which determines the states that have a row, and the columns of the rows.
//! Used by `run`, `rows`, `folded` and `characters`.
//!
//! If a lexer has many states, most of them are inside characters. In such a state only bytes from
//! 0x80 to 0xBF lead to a state, and most of these bytes lead to one or two states. Such a state
//! has no row. Instead, [`Inside`] describes its entries: either two entries, with the set of the
//! bytes that have the second entry, or an entry for each byte from 0x80 to 0xBF. The columns of
//! rows are then the classes of the symbols in the states that have rows.
//!
//! If a lexer has few states, each state has a row, and each row has an entry for each byte.

use crate::data::{Row, Unpacked, BYTES, END, SYMBOLS};
use crate::internal::Tables;
use crate::rows::NEVER;
use core::marker::PhantomData;

/// The layout of the rows of a lexer.
#[derive(Clone, Copy)]
pub struct Layout {
    /// The number of states that have a row.
    pub(crate) rows: usize,
    /// The number of states that have no row.
    pub(crate) insides: usize,
    /// The number of the state in which each match attempt begins.
    pub(crate) root: usize,
    /// The number of columns of a row.
    pub(crate) columns: usize,
    /// The column of each symbol.
    pub(crate) column: [u16; SYMBOLS],
    /// Whether all inputs are UTF-8.
    pub(crate) is_text: bool,
    /// Whether any fast loop consumes characters of more than one byte.
    pub(crate) passes: bool,
}

/// The steps of a state without a row, for the bytes from 0x80 to 0xBF. The index of a byte's entry
/// is the sum of `first`, the bits of `mask` in the byte, and the byte's bit in `bits`.
///
/// A state with at most two distinct entries has the mask 0, and `bits` contains the bytes that
/// have the second entry. Any other state has an entry for each byte, and `bits` is 0.
#[derive(Clone, Copy)]
pub struct Inside {
    pub(crate) bits: u64,
    pub(crate) first: u32,
    pub(crate) mask: u8,
    /// The mask for the index of an entry in a row: all bits in [`NO_INSIDE`], and 0 otherwise.
    pub(crate) row_mask: i8,
}

/// The number of bytes from 0x80 to 0xBF, which continue a character.
pub(crate) const CONTINUATIONS: usize = 64;
/// The lowest byte that continues a character.
pub(crate) const FIRST_CONTINUATION: usize = 0x80;
/// The value for states with a row.
pub(crate) const NO_INSIDE: Inside = Inside {
    bits: 0,
    first: 0,
    mask: 0,
    row_mask: -1,
};
/// The value for states without a row before their steps are known.
const NO_STEPS: Inside = Inside {
    row_mask: 0,
    ..NO_INSIDE
};

/// Returns whether a byte can continue a character.
#[inline(always)]
pub(crate) const fn continues(byte: u8) -> bool {
    byte & 0xC0 == FIRST_CONTINUATION as u8
}

impl Inside {
    /// Returns the index in the rows of the entry for `byte`, a byte from 0x80 to 0xBF. The
    /// function has no branch, since a branch could not be predicted in text that is not ASCII.
    #[inline(always)]
    pub(crate) const fn index(&self, byte: u8) -> usize {
        let bit = (self.bits >> (byte % CONTINUATIONS as u8)) as u32 & 1;
        (self.first + (byte & self.mask) as u32 + bit) as usize
    }
}

/// An enum with a table-driven lexer, and its tables in the layout that the loops read. The tables
/// are computed from the tables in generated code.
pub trait Made<'source> {
    /// The layout of the rows.
    const LAYOUT: Layout;
    /// Whether there are states without a row.
    const HAS_INSIDES: bool;
    /// The rows that the loop over match attempts reads. See [`crate::rows`].
    const ENTRIES: &'static [u32];
    /// The steps of the states without a row, for match attempts.
    const INSIDES: &'static [Inside];
    /// The last match in each state, in the order of the states' numbers.
    const LAST_MATCHES: &'static [u32];
    /// The index of each state in the tables of generated code, in the order of the states'
    /// numbers.
    const NUMBERED: &'static [u32];
    /// The folded tables, which walks read. See [`crate::folded`].
    const WALKED: &'static [u32];
    /// The steps of the states without a row, for walks.
    const WALKED_INSIDES: &'static [Inside];
}

/// The steps of the states without a row, and the number of their entries in the rows.
pub(crate) struct Sets<const STATES: usize> {
    pub(crate) insides: [Inside; STATES],
    pub(crate) entries: usize,
}

impl Layout {
    pub(crate) const NONE: Layout = Layout {
        rows: 0,
        insides: 0,
        root: 0,
        columns: 0,
        column: [0; SYMBOLS],
        is_text: false,
        passes: false,
    };
}

impl<'source, T, const STATES: usize, const RUNS: usize> Made<'source> for T
where
    T: Tables<'source, Unpacked = Unpacked<STATES, RUNS>>,
{
    const LAYOUT: Layout = T::UNPACKED.layout;
    const HAS_INSIDES: bool = T::UNPACKED.layout.insides > 0;
    const ENTRIES: &'static [u32] = if T::DATA.by_bytes() {
        printed_rows::<T>()
    } else {
        rows_of_size::<T, STATES, RUNS>(T::UNPACKED.rows_len(Parts::<'_, T>::ROWS.entries))
    };
    const INSIDES: &'static [Inside] = &Parts::<'_, T>::ROWS.insides;
    const LAST_MATCHES: &'static [u32] = &T::UNPACKED.by_numbers(T::LASTS);
    const NUMBERED: &'static [u32] = &T::UNPACKED.numbered();
    const WALKED: &'static [u32] = if T::DATA.by_bytes() {
        printed_folded::<T>()
    } else {
        folded_of_size::<T, STATES, RUNS>(T::UNPACKED.folded_len(Parts::<'_, T>::FOLDED.entries))
    };
    const WALKED_INSIDES: &'static [Inside] = &Parts::<'_, T>::FOLDED.insides;
}

// A constant that a function names is evaluated when the function is called. So each of the
// following functions is called only for the table that a lexer has.

const fn printed_rows<'s, T: Tables<'s>>() -> &'static [u32] {
    T::ROWS
}

const fn printed_folded<'s, T: Tables<'s>>() -> &'static [u32] {
    T::FOLDED
}

/// The steps of the states that have no row, as constants: the steps for match attempts, and the
/// steps for walks.
struct Parts<'s, T>(PhantomData<(&'s (), T)>);

impl<'s, T, const STATES: usize, const RUNS: usize> Parts<'s, T>
where
    T: Tables<'s, Unpacked = Unpacked<STATES, RUNS>>,
{
    const ROWS: Sets<STATES> = T::UNPACKED.row_sets(T::LASTS);
    const FOLDED: Sets<STATES> = T::UNPACKED.folded_sets(T::LASTS);
}

/// The tables of a lexer with `N` entries, as constants.
struct Sized<'s, T, const N: usize>(PhantomData<(&'s (), T)>);

impl<'s, T, const STATES: usize, const RUNS: usize, const N: usize> Sized<'s, T, N>
where
    T: Tables<'s, Unpacked = Unpacked<STATES, RUNS>>,
{
    const ROWS: &'static [u32] = &T::UNPACKED.all_rows::<N>(&Parts::<'_, T>::ROWS.insides);
    const FOLDED: &'static [u32] =
        &T::UNPACKED.all_folded::<N>(T::LASTS, &Parts::<'_, T>::FOLDED.insides);

    const fn rows() -> &'static [u32] {
        Self::ROWS
    }

    const fn folded() -> &'static [u32] {
        Self::FOLDED
    }
}

/// Calls the function `$made` of `Sized` with the least of the lengths `$n` that is at least
/// `$len`.
macro_rules! of_size {
    ($len:expr, $made:ident, $T:ident: $($n:literal)*) => {
        match $len {
            $(0..=$n => Sized::<'_, $T, $n>::$made(),)*
            _ => panic!("the tables have too many entries"),
        }
    };
}

const fn rows_of_size<'s, T, const STATES: usize, const RUNS: usize>(len: usize) -> &'static [u32]
where
    T: Tables<'s, Unpacked = Unpacked<STATES, RUNS>>,
{
    of_size!(len, rows, T:
        1024 1280 1536 1792 2048 2560 3072 3584 4096 5120 6144 7168 8192 10240 12288 14336 16384
        20480 24576 28672 32768 40960 49152 57344 65536 81920 98304 114688 131072 163840 196608
        229376 262144 327680 393216 458752 524288 655360 786432 917504 1048576 1310720 1572864
        1835008 2097152 2621440 3145728 3670016 4194304 5242880 6291456 7340032 8388608 12582912
        16777216 33554432 67108864 134217728 268435456 536870912)
}

const fn folded_of_size<'s, T, const STATES: usize, const RUNS: usize>(len: usize) -> &'static [u32]
where
    T: Tables<'s, Unpacked = Unpacked<STATES, RUNS>>,
{
    of_size!(len, folded, T:
        1025 1536 2048 3072 5120 9216 17408 33792 66560 132096 263168 525312 1049600)
}

impl<const STATES: usize, const RUNS: usize> Unpacked<STATES, RUNS> {
    /// Returns the number of each state, the layout of the rows, and an array. The array contains
    /// the column of each class, followed by the number of columns. The states that have a row have
    /// lower numbers than the states without a row.
    pub(crate) const fn laid_out(&self) -> ([u32; STATES], Layout, [u16; SYMBOLS + 1]) {
        let (mut column, mut symbol) = ([0; SYMBOLS], 0);
        let (mut number, mut state, mut rows) = ([u32::MAX; STATES], 0, 0);
        while state < STATES {
            if !self.has_no_row(state) {
                number[state] = rows as u32;
                rows += 1;
            }
            state += 1;
        }
        let (mut inside, mut state) = (rows, 0);
        while rows < STATES && state < STATES {
            if number[state] == u32::MAX {
                number[state] = inside as u32;
                inside += 1;
            }
            state += 1;
        }
        let of_classes = self.columns_of_classes(&number, rows as u32);
        let (by_bytes, passes) = (self.data.by_bytes(), self.passes());
        let by_classes = of_classes[self.data.width];
        while symbol < SYMBOLS {
            column[symbol] = if by_bytes {
                symbol as u16
            } else if passes && symbol != END && continues(symbol as u8) {
                // In the classes of these bytes there can be others, which do not stay.
                by_classes
            } else {
                of_classes[self.classes[symbol] as usize]
            };
            symbol += 1;
        }
        let layout = Layout {
            rows,
            insides: STATES - rows,
            columns: if by_bytes {
                BYTES
            } else {
                by_classes as usize + passes as usize
            },
            root: number[self.data.root] as usize,
            column,
            is_text: self.layout.is_text,
            passes,
        };
        (number, layout, of_classes)
    }

    /// Returns whether a state has no row.
    pub(crate) const fn is_inside(&self, state: usize) -> bool {
        self.number[state] as usize >= self.layout.rows
    }

    /// Returns whether a state needs no row.
    const fn has_no_row(&self, state: usize) -> bool {
        let mark = self.marks[state];
        let is_inside = self.rows[state].is_inside & (mark == 0 || mark % 2 == 1);
        is_inside && state != self.data.root && !self.data.by_bytes()
    }

    /// Returns the column of each class, followed by the number of columns. `number` contains the
    /// number of each state. The states with numbers below `rows` have a row.
    const fn columns_of_classes(&self, number: &[u32; STATES], rows: u32) -> [u16; SYMBOLS + 1] {
        let (mut columns, mut is_first, mut state) = ([0; SYMBOLS + 1], [false; SYMBOLS + 1], 0);
        let (width, runs) = (self.data.width, &self.runs);
        while state < STATES {
            let row = &self.rows[state];
            let (mut run, mut class) = (row.run, 0);
            let mut past = 0;
            while number[state] < rows && class < width {
                is_first[class] = true;
                past += runs[run].length;
                (class, run) = (past - row.passed, run + 1);
            }
            state += 1;
        }
        let (mut class, mut column) = (0, 0);
        while class < width {
            column += (class > 0 && is_first[class]) as u16;
            columns[class] = column;
            class += 1;
        }
        columns[width] = column + 1;
        columns
    }

    /// Returns the states in the order of their numbers.
    const fn numbered(&self) -> [u32; STATES] {
        let (mut states, mut state) = ([0; STATES], 0);
        while state < STATES {
            states[self.number[state] as usize] = state as u32;
            state += 1;
        }
        states
    }

    /// Returns the elements of `values` in the order of the states' numbers. `values` must have one
    /// element for each state.
    const fn by_numbers(&self, values: &[u32]) -> [u32; STATES] {
        let (mut by_numbers, mut state) = ([0; STATES], 0);
        while state < STATES {
            by_numbers[self.number[state] as usize] = values[state];
            state += 1;
        }
        by_numbers
    }

    /// Returns the steps of the states without a row. The entries of these states begin at the
    /// index `first` of the rows. `lasts` contains the last match in each state. States that lead
    /// only to one and the same state can share their two entries.
    pub(crate) const fn sets(&self, first: usize, lasts: &[u32]) -> Sets<STATES> {
        let (mut sets, mut state, rows) = (Sets::NONE, 0, self.layout.rows);
        let mut shared = [[0; 2]; STATES];
        while self.layout.insides > 0 && state < STATES {
            let (number, row) = (self.number[state] as usize, &self.rows[state]);
            let (next, bits) = row.only_step();
            if number < rows {
                state += 1;
                continue;
            }
            let mut index = (first + sets.entries) as u32;
            if next < 2 || self.marks[state] != 0 {
                sets.insides[number - rows] = row.inside(index);
                sets.entries += if row.kinds < 3 { 2 } else { CONTINUATIONS };
                state += 1;
                continue;
            }
            let is_never = (lasts[state] == NEVER) as usize;
            if shared[next - 2][is_never] == 0 {
                shared[next - 2][is_never] = index;
                sets.entries += 2;
            }
            index = shared[next - 2][is_never];
            sets.insides[number - rows] = Inside {
                bits,
                first: index,
                ..NO_STEPS
            };
            state += 1;
        }
        sets
    }

    /// Returns the steps of the two entries of a state without a row.
    pub(crate) const fn steps_of(&self, state: usize) -> [usize; 2] {
        let row = &self.rows[state];
        match row.only_step() {
            (next, _) if next >= 2 && self.marks[state] == 0 => [0, next],
            _ => row.steps,
        }
    }

    /// Returns the row offset of a state. States without a row have the offsets from `first` on.
    pub(crate) const fn offset(&self, state: usize, first: usize) -> u32 {
        let (number, Layout { rows, columns, .. }) = (self.number[state] as usize, &self.layout);
        if number < *rows {
            return (number * *columns) as u32;
        }
        (first + number - *rows) as u32
    }
}

impl<const STATES: usize> Sets<STATES> {
    /// The initial value, without steps and without entries.
    pub(crate) const NONE: Sets<STATES> = Sets {
        insides: [NO_INSIDE; STATES],
        entries: 0,
    };
}

impl Row {
    /// Returns the steps of a state without a row. The state has the row `self` in generated code,
    /// and its entries begin at the index `first`.
    const fn inside(&self, first: u32) -> Inside {
        if self.kinds < 3 {
            let bits = self.bits;
            return Inside {
                bits,
                first,
                ..NO_STEPS
            };
        }
        let mask = CONTINUATIONS as u8 - 1;
        Inside {
            first,
            mask,
            ..NO_STEPS
        }
    }

    /// Returns the step of the bytes that continue a character and lead to a state, and the set of
    /// these bytes. Returns zeros if these bytes have more than one step.
    pub(crate) const fn only_step(&self) -> (usize, u64) {
        match (self.kinds, self.steps) {
            (1, [next, _]) => (next, !0),
            (2, [0, next]) => (next, self.bits),
            (2, [next, 0]) => (next, !self.bits),
            _ => (0, 0),
        }
    }
}

/// Returns, for each class, the number of symbols in lower classes that cannot continue a
/// character.
pub(crate) const fn others_before(classes: &[u16; SYMBOLS]) -> [u16; SYMBOLS + 1] {
    let (mut before, mut symbol, mut class) = ([0; SYMBOLS + 1], 0, 0);
    while symbol < SYMBOLS {
        let is_other = symbol == END || !continues(symbol as u8);
        before[classes[symbol] as usize + 1] += is_other as u16;
        symbol += 1;
    }
    while class < SYMBOLS {
        before[class + 1] += before[class];
        class += 1;
    }
    before
}

/// Returns, for each class, the set of the bytes from 0x80 to 0xBF in lower classes.
pub(crate) const fn continuing(classes: &[u16; SYMBOLS]) -> [u64; SYMBOLS + 1] {
    let (mut bits, mut byte, mut class) = ([0; SYMBOLS + 1], FIRST_CONTINUATION, 0);
    while byte < FIRST_CONTINUATION + CONTINUATIONS {
        bits[classes[byte] as usize + 1] |= 1 << (byte - FIRST_CONTINUATION);
        byte += 1;
    }
    while class < SYMBOLS {
        bits[class + 1] |= bits[class];
        class += 1;
    }
    bits
}
