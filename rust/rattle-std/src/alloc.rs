//! Replaces Rattle's `std::alloc`: the allocator, its errors, and the memory budget.

mod budget;

use core::fmt;

pub use budget::{BudgetError, DEFAULT_BUDGET, budget_of, set_budget, set_budget_of_program};
pub(crate) use budget::{claim, release};

/// The allocator of the process.
#[derive(Clone, Copy, Debug, Default, PartialEq, Eq)]
pub struct Global;

/// The error of an allocation that failed.
#[derive(Clone, Copy, Debug, PartialEq, Eq)]
pub struct AllocError;

impl fmt::Display for AllocError {
    fn fmt(&self, f: &mut fmt::Formatter<'_>) -> fmt::Result {
        f.write_str("memory allocation failed")
    }
}

impl core::error::Error for AllocError {}

/// The error of an allocation that failed, with the value that was to be stored.
pub struct AllocFailed<T> {
    /// The value that was not stored.
    pub value: T,
}

impl<T> fmt::Display for AllocFailed<T> {
    fn fmt(&self, f: &mut fmt::Formatter<'_>) -> fmt::Result {
        AllocError.fmt(f)
    }
}

impl<T> fmt::Debug for AllocFailed<T> {
    fn fmt(&self, f: &mut fmt::Formatter<'_>) -> fmt::Result {
        f.write_str("AllocFailed")
    }
}

impl<T> core::error::Error for AllocFailed<T> {}

impl<T> From<AllocFailed<T>> for AllocError {
    #[inline]
    fn from(_error: AllocFailed<T>) -> AllocError {
        AllocError
    }
}

impl From<AllocError> for fmt::Error {
    fn from(_error: AllocError) -> fmt::Error {
        fmt::Error
    }
}

/// Returns the new capacity of a block that needs room for `additional` items after the first
/// `len`, and claims the added bytes.
///
/// `capacity` is the present capacity, and `size` is the number of bytes of an item. The capacity
/// at least doubles, so adding an item takes amortized constant time.
///
/// # Errors
///
/// Returns `AllocError` if the number of bytes overflows or the budget does not allow the
/// additional bytes. In this case, no bytes are claimed.
pub(crate) fn grown(
    len: usize,
    capacity: usize,
    additional: usize,
    size: usize,
) -> Result<usize, AllocError> {
    let needed = len.checked_add(additional).ok_or(AllocError)?;
    let least = if size == 1 { 8 } else { 4 };
    let grown = needed.max(capacity.saturating_mul(2)).max(least);
    let bytes = grown.checked_mul(size).ok_or(AllocError)?;
    claim(bytes - capacity * size)?;
    Ok(grown)
}
