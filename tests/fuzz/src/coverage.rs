//! Which edges of the library ran, and how often: the counters that rustc's pass `sancov-module`
//! puts into the code. Without that pass there are none.

use std::sync::atomic::{AtomicPtr, AtomicUsize, Ordering::Relaxed};
use std::sync::{Mutex, PoisonError};

static START: AtomicPtr<u8> = AtomicPtr::new(std::ptr::null_mut());
static LENGTH: AtomicUsize = AtomicUsize::new(0);

/// Remembers where the counters are. The instrumented code calls it before `main`, once for each
/// object file, with the first byte of the counters of the whole program and the byte after them.
///
/// # Safety
///
/// Only the instrumented code calls it, with the ends of one array that lives as long as the
/// program.
// `no_mangle` gives it the name that the instrumented code calls. No library of Rust has that name.
#[unsafe(no_mangle)]
pub unsafe extern "C" fn __sanitizer_cov_8bit_counters_init(start: *mut u8, stop: *mut u8) {
    START.store(start, Relaxed);
    LENGTH.store(stop as usize - start as usize, Relaxed);
}

/// Returns the counters. The program has one thread, and uses them only between calls of the
/// library.
fn counters() -> &'static mut [u8] {
    let (start, length) = (START.load(Relaxed), LENGTH.load(Relaxed));
    if length == 0 {
        return &mut [];
    }
    // SAFETY: `START` and `LENGTH` describe the array that the linker made of all counters, see
    // above. Instrumented code changes it while it runs, but never while this slice is used: it is
    // used only here, in `reset` and `hold`, by the one thread, and every use of it is a plain read
    // or write of a byte. That code of this file is instrumented, too, changes counts, and nothing
    // that depends on them being right.
    unsafe { std::slice::from_raw_parts_mut(start, length) }
}

/// What was seen so far: for each counter a bit for each magnitude that it had, and other facts.
pub struct Seen {
    counts: Vec<u8>,
    facts: Vec<u8>,
}

/// The number of facts that are told apart.
const FACTS: usize = 1 << 16;

/// Returns the bit of the magnitude of a count that is not 0.
fn magnitude(count: u8) -> u8 {
    match count {
        1 => 1,
        2 => 2,
        3 => 4,
        4..=7 => 8,
        8..=15 => 16,
        16..=31 => 32,
        32..=127 => 64,
        _ => 128,
    }
}

/// The counters as they were after the library ran.
static HELD: Mutex<Vec<u8>> = Mutex::new(Vec::new());

/// Sets all counters to 0.
pub fn reset() {
    counters().fill(0);
    HELD.lock().unwrap_or_else(PoisonError::into_inner).clear();
}

/// Holds the counters as they are, so that the definition, which runs after the library, does not
/// count.
pub fn hold() {
    let mut held = HELD.lock().unwrap_or_else(PoisonError::into_inner);
    if held.is_empty() {
        held.extend_from_slice(counters());
    }
}

/// Returns the number of counters.
pub fn length() -> usize {
    LENGTH.load(Relaxed)
}

impl Seen {
    pub fn new() -> Seen {
        Seen {
            counts: vec![0; length()],
            facts: vec![0; FACTS],
        }
    }

    /// Adds what the counters had when they were held, and returns how much of it is new.
    pub fn take(&mut self) -> usize {
        let held = HELD.lock().unwrap_or_else(PoisonError::into_inner);
        let mut new = 0;
        for (seen, count) in self.counts.iter_mut().zip(held.iter()) {
            if *count != 0 && *seen & magnitude(*count) == 0 {
                *seen |= magnitude(*count);
                new += 1;
            }
        }
        new
    }

    /// Adds facts about a case, and returns how many are new. They serve where there are no
    /// counters, and tell apart what one path of the code does.
    pub fn take_facts(&mut self, facts: &[u64]) -> usize {
        let mut new = 0;
        for fact in facts {
            let at = (fact.wrapping_mul(0x9E37_79B9_7F4A_7C15) >> 48) as usize;
            new += usize::from(self.facts[at] == 0);
            self.facts[at] = 1;
        }
        new
    }

    /// Returns how many counters were ever seen above 0.
    pub fn edges(&self) -> usize {
        self.counts.iter().filter(|seen| **seen != 0).count()
    }
}
