//! The memory budget: the maximum number of bytes in use.
//!
//! Programs and macros that read untrusted input set the budget. An allocation that would exceed
//! the budget fails as if memory ran out. The budget counts the capacity of everything that this
//! crate allocates, but not the overhead of the system's allocator.

use super::AllocError;
use core::fmt;
use core::sync::atomic::{AtomicUsize, Ordering::Relaxed};

/// The default memory budget of a program, in bytes: 1 GiB. The environment variable `LOGOS_MEMORY`
/// overrides this default.
pub const DEFAULT_BUDGET: usize = 1 << 30;

/// The name of the environment variable that overrides the default budget.
const VARIABLE: &str = "LOGOS_MEMORY";

/// The maximum number of bytes in use. `usize::MAX` means that there is no budget.
static BUDGET: AtomicUsize = AtomicUsize::new(usize::MAX);

/// The number of bytes that were claimed while there was a budget, minus the number of bytes that
/// were released.
static IN_USE: AtomicUsize = AtomicUsize::new(0);

/// Sets the maximum number of bytes in use, or removes the budget if `bytes` is `None`.
///
/// The setting applies to the whole process, which starts without a budget. Bytes that were
/// allocated while there was no budget are not counted, so a program calls this function before it
/// allocates.
pub fn set_budget(bytes: Option<usize>) {
    BUDGET.store(bytes.unwrap_or(usize::MAX), Relaxed);
}

/// Sets the budget to the value of the variable `LOGOS_MEMORY`, or to [`DEFAULT_BUDGET`] if the
/// variable is not set.
///
/// # Errors
///
/// Returns `BudgetError` if the value of the variable is not a number of bytes. In this case, the
/// budget is [`DEFAULT_BUDGET`].
pub fn set_budget_of_program() -> Result<(), BudgetError> {
    set_budget(Some(DEFAULT_BUDGET));
    if let Some(text) = std::env::var_os(VARIABLE) {
        let bytes = text.to_str().and_then(budget_of).ok_or(BudgetError)?;
        set_budget(Some(bytes));
    }
    Ok(())
}

/// Returns the number of bytes that `text` denotes: digits, optionally followed by `M` for MiB or
/// `G` for GiB. Returns `None` for any other text, or if the number overflows.
pub fn budget_of(text: &str) -> Option<usize> {
    let (digits, unit) = match text.as_bytes() {
        [.., b'M'] => (&text[..text.len() - 1], 1 << 20),
        [.., b'G'] => (&text[..text.len() - 1], 1 << 30),
        _ => (text, 1),
    };
    if !digits.bytes().all(|byte| byte.is_ascii_digit()) {
        return None;
    }
    digits.parse::<usize>().ok()?.checked_mul(unit)
}

/// The error of a program whose environment variable `LOGOS_MEMORY` does not denote a number of
/// bytes.
#[derive(Clone, Copy, Debug, PartialEq, Eq)]
pub struct BudgetError;

impl fmt::Display for BudgetError {
    fn fmt(&self, f: &mut fmt::Formatter<'_>) -> fmt::Result {
        f.write_str("the variable LOGOS_MEMORY has to be a number of bytes, such as 500M or 2G")
    }
}

impl core::error::Error for BudgetError {}

/// Adds `bytes` to the number of bytes in use before the bytes are allocated. Does nothing if there
/// is no budget.
///
/// # Errors
///
/// Returns `AllocError` if the number of bytes in use would exceed the budget. In this case, the
/// bytes are not counted.
#[inline]
pub(crate) fn claim(bytes: usize) -> Result<(), AllocError> {
    let budget = BUDGET.load(Relaxed);
    if budget == usize::MAX {
        return Ok(());
    }
    let before = IN_USE.fetch_add(bytes, Relaxed);
    // Bytes that were allocated before the budget was set may have been released, so the sum may be
    // negative.
    if (before.wrapping_add(bytes) as isize) > budget.min(isize::MAX as usize) as isize {
        IN_USE.fetch_sub(bytes, Relaxed);
        return Err(AllocError);
    }
    Ok(())
}

/// Subtracts `bytes` from the number of bytes in use. The bytes must have been claimed. Does
/// nothing if there is no budget.
#[inline]
pub(crate) fn release(bytes: usize) {
    if bytes != 0 && BUDGET.load(Relaxed) != usize::MAX {
        IN_USE.fetch_sub(bytes, Relaxed);
    }
}
