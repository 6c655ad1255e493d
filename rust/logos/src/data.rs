//! The tables of a lexer, in the packed form of generated code and in unpacked form. Used by
//! `rows`, `folded`, `loops` and `layout`.

use crate::characters::{Leads, NO_LEADS};
use crate::internal::Tables;
use crate::layout::{continuing, others_before, Layout};
use crate::loops::Mask;
use crate::Source;

/// The number of symbols: all bytes, and the end of the input.
pub(crate) const SYMBOLS: usize = 257;
/// The symbol for the end of the input.
pub(crate) const END: usize = 256;
/// The maximum number of states of a lexer whose rows have an entry for each byte.
const FEW: usize = 300;
/// The number of columns of a row that has an entry for each byte. If it were a power of two, the
/// entries of a byte in all rows would compete for a few cache lines.
pub(crate) const BYTES: usize = 272;

/// A sequence of numbers, as the size of each number in bytes, and the bytes of all numbers in
/// little-endian order.
pub type Numbers = (usize, &'static [u8]);

/// The tables of a lexer in the form of generated code.
///
/// A symbol is a byte or the end of the input. The symbols of a class have equal steps in each
/// state. Each state has a row, which has a step for each class. A step is 0 if it leads to no
/// state, 1 if the symbol does not change the state, and otherwise 2 plus the next state.
#[derive(Clone, Copy)]
pub struct Data {
    /// The state in which each match attempt begins.
    pub root: usize,
    /// The number of classes.
    pub width: usize,
    /// The number of symbols in each run of consecutive symbols of one class.
    pub class_lengths: Numbers,
    /// The class of each run of `class_lengths`.
    pub classes: Numbers,
    /// The number of equal steps in each run of the concatenated rows.
    pub lengths: Numbers,
    /// The step of each run of `lengths`.
    pub steps: Numbers,
    /// The index of each state's row.
    pub rows: Numbers,
    /// The mark of each state, or 0 if the state has no mark. A mark is 2 plus twice the leaf whose
    /// match the state records, plus 1 if the match ends one byte before the state.
    pub marks: Numbers,
    /// A number for each leaf: 1 if its matches are skipped without a callback, and 0 otherwise.
    pub skips: Numbers,
}

/// A run of equal steps.
#[derive(Clone, Copy)]
pub(crate) struct Run {
    pub(crate) length: usize,
    pub(crate) step: usize,
}

/// A row, which has a step for each class.
#[derive(Clone, Copy)]
pub(crate) struct Row {
    /// The index of the run that contains the first step of the row.
    pub(crate) run: usize,
    /// The number of steps of this run that belong to earlier rows.
    pub(crate) passed: usize,
    /// Whether any step of the row leads to a state.
    pub(crate) leads: bool,
    /// Whether the state of the row is inside a character: a byte leads to another state, no byte
    /// leads back to the same state, and the end of the input and the bytes that do not continue a
    /// character lead to no state.
    pub(crate) is_inside: bool,
    /// The first two distinct steps of the bytes that continue a character. This field, `kinds` and
    /// `bits` are complete only if `is_inside` is `true`.
    pub(crate) steps: [usize; 2],
    /// The number of distinct steps of the bytes that continue a character, or 3 if there are more
    /// than two.
    pub(crate) kinds: u8,
    /// The set of the bytes that continue a character and have the second step.
    pub(crate) bits: u64,
    /// The number of bytes that do not change the state.
    pub(crate) staying: u16,
    /// The number of earlier rows with a fast loop.
    pub(crate) number: usize,
    /// Whether a byte that continues a character leads to a state.
    pub(crate) continues: bool,
}

/// The tables of a lexer in unpacked form. They exist only at compile time.
pub struct Unpacked<const STATES: usize, const RUNS: usize> {
    /// The tables in packed form.
    pub(crate) data: Data,
    /// The class of each symbol.
    pub(crate) classes: [u16; SYMBOLS],
    /// The runs of equal steps in the concatenated rows.
    pub(crate) runs: [Run; RUNS],
    /// The row of each state.
    pub(crate) rows: [Row; STATES],
    /// The mark of each state.
    pub(crate) marks: [u32; STATES],
    /// The first bytes of the characters that the fast loop of each state consumes.
    pub(crate) leads: [Leads; STATES],
    /// The number of distinct rows with a fast loop.
    pub(crate) loops: usize,
    /// The number of each state. The states that have a row have the lowest numbers.
    pub(crate) number: [u32; STATES],
    /// The layout of the rows.
    pub(crate) layout: Layout,
    /// The column of each class, followed by the number of columns.
    pub(crate) of_classes: [u16; SYMBOLS + 1],
}

impl Unpacked<0, 0> {
    /// The tables of a refused enum.
    pub const NOTHING: Self = Unpacked {
        data: Data::NOTHING,
        classes: [0; SYMBOLS],
        runs: [],
        rows: [],
        marks: [],
        leads: [],
        loops: 0,
        number: [],
        layout: Layout::NONE,
        of_classes: [0; SYMBOLS + 1],
    };
}

/// Functions that compute the values of the constants of a lexer. Each value is computed from the
/// enum, and not from another constant: when rustc only checks a package, it evaluates each
/// constant that another constant names, and leaves the other constants to builds.
///
/// # Panics
///
/// Each function panics if a const parameter is not the number that the tables require.
impl<const STATES: usize, const RUNS: usize> Unpacked<STATES, RUNS> {
    /// Returns the tables of the lexer of `T` in unpacked form.
    pub const fn new<'source, T: Tables<'source>>() -> Self {
        T::DATA.unpacked(<T::Source as Source>::IS_TEXT)
    }

    /// Returns the rows of a lexer, followed by 256 additional entries, if a row has an entry for
    /// each byte, and zeros otherwise. The rows of other lexers are in `layout::Made`.
    pub const fn rows<'source, T, const N: usize>() -> [u32; N]
    where
        T: Tables<'source, Unpacked = Self>,
    {
        if !T::DATA.by_bytes() {
            return [0; N];
        }
        T::UNPACKED.all_rows(&[])
    }

    /// Returns the last match in each state of a lexer.
    pub const fn lasts<'source, T>() -> [u32; STATES]
    where
        T: Tables<'source, Unpacked = Self>,
    {
        T::UNPACKED.all_lasts()
    }

    /// Returns the masks of the fast loops of a lexer. The number of masks is a power of two.
    pub const fn masks<'source, T, const LOOPS: usize>() -> [Mask; LOOPS]
    where
        T: Tables<'source, Unpacked = Self>,
    {
        T::UNPACKED.all_masks()
    }

    /// Returns the folded tables of a lexer if a row has an entry for each byte, and zeros
    /// otherwise.
    pub const fn folded<'source, T, const N: usize>() -> [u32; N]
    where
        T: Tables<'source, Unpacked = Self>,
    {
        if !T::DATA.by_bytes() {
            return [0; N];
        }
        T::UNPACKED.all_folded(T::LASTS, &[])
    }
}

/// Returns the number of elements of `numbers`.
const fn count(numbers: &Numbers) -> usize {
    numbers.1.len() / numbers.0
}

/// Returns the element of `numbers` at the index `n`.
const fn number(numbers: &Numbers, n: usize) -> usize {
    let (size, bytes) = *numbers;
    let (mut number, mut at) = (0, size * (n + 1));
    while at > size * n {
        at -= 1;
        number = number << 8 | bytes[at] as usize;
    }
    number
}

impl Data {
    /// The tables of a refused enum. No constant can be made from them.
    pub const NOTHING: Data = Data {
        root: 0,
        width: 0,
        class_lengths: (1, &[]),
        classes: (1, &[]),
        lengths: (1, &[]),
        steps: (1, &[]),
        rows: (1, &[]),
        marks: (1, &[]),
        skips: (1, &[]),
    };

    /// Returns the number of states.
    pub(crate) const fn states(&self) -> usize {
        count(&self.rows)
    }

    /// Returns the number of leaves.
    pub(crate) const fn leaves(&self) -> usize {
        count(&self.skips)
    }

    /// Returns whether a row has an entry for each byte instead of for each class.
    pub(crate) const fn by_bytes(&self) -> bool {
        self.states() <= FEW
    }

    /// Returns the mark of a state.
    pub(crate) const fn mark(&self, state: usize) -> usize {
        number(&self.marks, state)
    }

    /// Returns whether the matches of a leaf are skipped without a callback.
    pub(crate) const fn skips(&self, leaf: usize) -> bool {
        number(&self.skips, leaf) == 1
    }

    /// Returns the class of each symbol.
    pub(crate) const fn classes(&self) -> [u16; SYMBOLS] {
        let (mut classes, mut symbol, mut run) = ([0; SYMBOLS], 0, 0);
        assert!(count(&self.class_lengths) == count(&self.classes));
        while run < count(&self.classes) {
            let end = symbol + number(&self.class_lengths, run);
            let class = number(&self.classes, run);
            assert!(class < self.width, "a class is one of a row");
            while symbol < end {
                classes[symbol] = class as u16;
                symbol += 1;
            }
            run += 1;
        }
        assert!(symbol == SYMBOLS, "each symbol has a class");
        classes
    }

    /// Returns the tables in unpacked form. `is_text` is `true` if all inputs are UTF-8.
    ///
    /// # Panics
    ///
    /// Panics if `STATES` is not the number of states, if `RUNS` is not the number of runs, or if
    /// the tables name a class, a row, a state or a leaf that does not exist.
    const fn unpacked<const STATES: usize, const RUNS: usize>(
        &self,
        is_text: bool,
    ) -> Unpacked<STATES, RUNS> {
        assert!(STATES == self.states() && STATES == count(&self.marks));
        let (classes, runs) = (self.classes(), self.runs());
        let before = [bytes_before(&classes), others_before(&classes)];
        let (distinct, height, loops) = self.distinct(&runs, &before, &continuing(&classes));
        let (mut rows, mut marks, mut state) = (distinct, [0; STATES], 0);
        while state < STATES {
            let (row, mark) = (number(&self.rows, state), self.mark(state));
            assert!(row < height, "the row of a state is there");
            assert!(mark / 2 <= self.leaves(), "the leaf of a mark is there");
            rows[state] = distinct[row];
            marks[state] = mark as u32;
            state += 1;
        }
        assert!(self.root < STATES, "the first state is there");
        let mut unpacked = Unpacked {
            data: *self,
            classes,
            runs,
            rows,
            marks,
            leads: [NO_LEADS; STATES],
            loops,
            number: [0; STATES],
            layout: Layout::NONE,
            of_classes: [0; SYMBOLS + 1],
        };
        if is_text {
            unpacked.layout.is_text = true;
            unpacked.leads = unpacked.staying_leads();
        }
        (unpacked.number, unpacked.layout, unpacked.of_classes) = unpacked.laid_out();
        unpacked
    }

    const fn runs<const RUNS: usize>(&self) -> [Run; RUNS] {
        assert!(RUNS == count(&self.lengths) && RUNS == count(&self.steps));
        let (mut runs, mut n) = ([Run { length: 0, step: 0 }; RUNS], 0);
        let ((long, lengths), (size, steps)) = (self.lengths, self.steps);
        let (mut at, past) = (0, self.states() + 2);
        // There are many runs, and the compiler takes long for each call. Therefore short numbers
        // are read here.
        while n < RUNS {
            let length = match long {
                1 => lengths[n] as usize,
                _ => number(&self.lengths, n),
            };
            let step = match size {
                1 => steps[at] as usize,
                2 => steps[at] as usize | (steps[at + 1] as usize) << 8,
                _ => number(&self.steps, n),
            };
            if step >= past {
                panic!("the next state is there");
            }
            runs[n] = Run { length, step };
            (n, at) = (n + 1, at + size);
        }
        runs
    }

    /// Returns the distinct rows, the number of distinct rows, and the number of distinct rows with
    /// a fast loop. `before` contains the results of [`bytes_before`] and [`others_before`], and
    /// `continuing` is the result of the function [`continuing`].
    const fn distinct<const STATES: usize>(
        &self,
        runs: &[Run],
        before: &[[u16; SYMBOLS + 1]; 2],
        continuing: &[u64; SYMBOLS + 1],
    ) -> ([Row; STATES], usize, usize) {
        let (mut run, mut passed, mut height, mut number) = (0, 0, 0, 0);
        let (width, [bytes, others]) = (self.width, before);
        let mut rows = [Row {
            run,
            passed,
            leads: false,
            is_inside: false,
            steps: [0; 2],
            kinds: 0,
            bits: 0,
            staying: 0,
            number,
            continues: false,
        }; STATES];
        while run < runs.len() {
            let (mut leads, mut staying, mut class, mut is_inside) = (false, 0, 0, true);
            let (mut steps, mut kinds, mut set) = ([0; 2], 0, 0);
            let (mut continues, first) = (false, (run, passed));
            while class < width {
                let Run { length, step } = runs[run];
                let (mut end, next) = (class + length - passed, run + 1);
                if end > width {
                    (end, passed) = (width, passed + width - class);
                } else {
                    (run, passed) = (next, 0);
                }
                leads |= step != 0;
                let bits = continuing[end] & !continuing[class];
                continues |= step != 0 && bits != 0;
                if is_inside {
                    is_inside = step == 0 || step != 1 && others[end] == others[class];
                    let is_known = kinds > 0 && step == steps[0];
                    if bits != 0 && kinds < 3 && !is_known {
                        if kinds == 0 {
                            (steps[0], kinds) = (step, 1);
                        } else if kinds == 1 || step == steps[1] {
                            (steps[1], kinds, set) = (step, 2, set | bits);
                        } else {
                            kinds = 3;
                        }
                    }
                }
                if step == 1 {
                    staying += bytes[end] - bytes[class];
                }
                class = end;
            }
            rows[height] = Row {
                run: first.0,
                passed: first.1,
                leads,
                is_inside: is_inside & leads,
                steps,
                kinds,
                bits: set,
                staying,
                number,
                continues,
            };
            number += (staying > 0) as usize;
            height += 1;
        }
        (rows, height, number)
    }
}

/// Returns, for each class, the number of bytes in lower classes.
const fn bytes_before(classes: &[u16; SYMBOLS]) -> [u16; SYMBOLS + 1] {
    let (mut before, mut byte, mut class) = ([0; SYMBOLS + 1], 0, 0);
    while byte < END {
        before[classes[byte] as usize + 1] += 1;
        byte += 1;
    }
    while class < SYMBOLS {
        before[class + 1] += before[class];
        class += 1;
    }
    before
}
