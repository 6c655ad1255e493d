//! A sorted set whose growth may fail.

use crate::alloc::{AllocError, AllocFailed, Global};
use crate::vec::Vec;
use core::borrow::Borrow;
use core::iter::Flatten;
use core::slice::Iter;

/// The maximum number of values in a run. Inserting a value moves at most `RUN` other values.
const RUN: usize = 512;

/// A sorted set of values.
///
/// The values are in a sorted vector that is divided into runs. Therefore, inserting a value moves
/// only values of one run. No run is empty.
pub struct BTreeSet<T> {
    runs: Vec<Vec<T>>,
    len: usize,
}

impl<T: Ord> BTreeSet<T> {
    /// Returns an empty set.
    pub fn new(alloc: Global) -> BTreeSet<T> {
        BTreeSet {
            runs: Vec::new(alloc),
            len: 0,
        }
    }

    /// Returns the index of the run that contains `value` or into which `value` would be inserted.
    /// Returns the index of the last run if `value` is greater than all values of the set, and 0 if
    /// there are no runs.
    fn run_of<Q: ?Sized + Ord>(&self, value: &Q) -> usize
    where
        T: Borrow<Q>,
    {
        let is_before = |run: &Vec<T>| run.last().is_some_and(|last| last.borrow() < value);
        let run = self.runs.partition_point(is_before);
        run.min(self.runs.len().saturating_sub(1))
    }

    /// Adds `value` to the set unless the set contains an equal value. Returns whether `value` was
    /// added.
    ///
    /// # Errors
    ///
    /// Returns `AllocFailed` with the value if memory runs out. In this case, the values of the set
    /// are unchanged.
    pub fn insert(&mut self, value: T) -> Result<bool, AllocFailed<T>> {
        let mut run = self.run_of(&value);
        if self.make_room(run).is_err() {
            return Err(AllocFailed { value });
        }
        if self.runs[run].last().is_some_and(|last| *last < value) && run + 1 < self.runs.len() {
            run += 1;
        }
        match self.runs[run].binary_search(&value) {
            Ok(_) => Ok(false),
            Err(at) => {
                self.runs[run].insert(at, value)?;
                self.len += 1;
                Ok(true)
            }
        }
    }

    /// Adds a first run if there are no runs, or splits the run at the index `run` if this run is
    /// full.
    fn make_room(&mut self, run: usize) -> Result<(), AllocError> {
        if self.runs.is_empty() {
            self.runs.push(Vec::new(Global))?;
        } else if self.runs[run].len() == RUN {
            self.runs.reserve(1)?;
            let rest = self.runs[run].split_off(RUN / 2)?;
            self.runs.insert(run + 1, rest)?;
        }
        Ok(())
    }

    /// Returns whether the set contains `value`.
    pub fn contains<Q: ?Sized + Ord>(&self, value: &Q) -> bool
    where
        T: Borrow<Q>,
    {
        let Some(run) = self.runs.get(self.run_of(value)) else {
            return false;
        };
        run.binary_search_by(|it| it.borrow().cmp(value)).is_ok()
    }

    /// Returns an iterator over the values in ascending order.
    pub fn iter(&self) -> Flatten<Iter<'_, Vec<T>>> {
        self.runs.iter().flatten()
    }

    /// Returns the number of values.
    pub fn len(&self) -> usize {
        self.len
    }

    /// Returns whether the set has no values.
    pub fn is_empty(&self) -> bool {
        self.len == 0
    }
}

impl<'v, T: Ord> IntoIterator for &'v BTreeSet<T> {
    type Item = &'v T;
    type IntoIter = Flatten<Iter<'v, Vec<T>>>;

    fn into_iter(self) -> Self::IntoIter {
        self.iter()
    }
}
