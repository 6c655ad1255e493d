//! Replaces the kit's `indexmap`: sets and maps whose entries are numbered from 0 in the order in
//! which they were added.

mod folded;
mod map;
mod set;

pub use map::IndexMap;
pub use set::IndexSet;

use crate::alloc::{AllocError, AllocFailed, Global};
use crate::vec::Vec;
use core::hash::{Hash, Hasher};
use folded::Folded;

/// A list of entries, and a table that maps the hash of an entry's key to the index of the entry.
struct Entries<E> {
    list: Vec<E>,
    table: Table,
}

impl<E> Entries<E> {
    fn new(alloc: Global) -> Entries<E> {
        Entries {
            list: Vec::new(alloc),
            table: Table::new(alloc),
        }
    }

    /// Makes room for `additional` more entries.
    fn reserve(&mut self, additional: usize) -> Result<(), AllocError> {
        self.table.reserve(self.list.len(), additional)?;
        self.list.reserve(additional)
    }

    /// Returns the index of the entry that has the hash `hash` and satisfies `is_it`, or `None` if
    /// there is no such entry.
    #[inline]
    fn find(&self, hash: u32, is_it: impl Fn(&E) -> bool) -> Option<usize> {
        self.table.find(hash, |index| is_it(&self.list[index]))
    }

    /// Appends `entry`, and returns the index of the entry. The key of the entry must be new, and
    /// `hash` must be the hash of the key. Returns `AllocFailed` with the entry if memory runs out.
    /// In this case, the entries are unchanged.
    #[inline]
    fn push(&mut self, hash: u32, entry: E) -> Result<usize, AllocFailed<E>> {
        let index = self.list.len();
        if self.table.reserve(index, 1).is_err() {
            return Err(AllocFailed { value: entry });
        }
        self.list.push(entry)?;
        self.table.set(hash, index);
        Ok(index)
    }
}

/// A slot of a table: the hash of an entry, and the index of the entry plus 1. Both are 0 in an
/// empty slot.
#[derive(Clone, Copy)]
struct Place {
    hash: u32,
    entry: u32,
}

const EMPTY: Place = Place { hash: 0, entry: 0 };

/// A hash table of the indices of entries.
///
/// The number of slots is 0 or a power of two, and at most half of the slots are used. If another
/// entry uses the slot of a hash, the following slots are examined in turn.
///
/// The hashes differ between executions of a program. No result depends on the hashes, because
/// entries are listed only in the order of their indices.
struct Table {
    places: Vec<Place>,
    nothing: Folded,
}

impl Table {
    fn new(alloc: Global) -> Table {
        Table {
            places: Vec::new(alloc),
            nothing: Folded::new(),
        }
    }

    #[inline]
    fn hash_of<Q: ?Sized + Hash>(&self, key: &Q) -> u32 {
        let mut hash = self.nothing;
        key.hash(&mut hash);
        hash.finish() as u32
    }

    /// Returns the index of the entry that has the hash `hash` and whose index satisfies `is_it`,
    /// or `None` if there is no such entry.
    #[inline]
    fn find<F: Fn(usize) -> bool>(&self, hash: u32, is_it: F) -> Option<usize> {
        let mask = self.places.len().wrapping_sub(1);
        let mut at = hash as usize & mask;
        while let Some(place) = self.places.get(at).filter(|place| place.entry != 0) {
            let index = place.entry as usize - 1;
            if place.hash == hash && is_it(index) {
                return Some(index);
            }
            at = (at + 1) & mask;
        }
        None
    }

    /// Stores the hash `hash` and the index `index` of an entry in an empty slot. The table must
    /// have an empty slot.
    fn set(&mut self, hash: u32, index: usize) {
        let mask = self.places.len() - 1;
        let mut at = hash as usize & mask;
        while self.places[at].entry != 0 {
            at = (at + 1) & mask;
        }
        self.places[at] = Place {
            hash,
            entry: index as u32 + 1,
        };
    }

    /// Makes room for `additional` entries after the first `len` entries.
    #[inline]
    fn reserve(&mut self, len: usize, additional: usize) -> Result<(), AllocError> {
        let needed = len.checked_add(additional).ok_or(AllocError)?;
        if needed <= self.places.len() / 2 {
            return Ok(());
        }
        self.grow(needed)
    }

    #[cold]
    fn grow(&mut self, needed: usize) -> Result<(), AllocError> {
        if needed >= u32::MAX as usize / 2 {
            return Err(AllocError);
        }
        let count = (2 * needed).next_power_of_two().max(16);
        let mut places = Vec::new(Global);
        places.resize(count, EMPTY)?;
        core::mem::swap(&mut self.places, &mut places);
        for place in places.iter().filter(|place| place.entry != 0) {
            self.set(place.hash, place.entry as usize - 1);
        }
        Ok(())
    }

    /// Removes the entry with the hash `hash` and the index `index`. The entry must be in the
    /// table. Moves entries in later slots back if their hashes allow the move.
    fn remove(&mut self, hash: u32, index: usize) {
        let mask = self.places.len() - 1;
        let mut hole = hash as usize & mask;
        while self.places[hole].entry as usize != index + 1 {
            hole = (hole + 1) & mask;
        }
        self.close(hole);
    }

    /// Empties the slot at the index `hole`. Moves entries in later slots back if their hashes
    /// allow the move.
    fn close(&mut self, mut hole: usize) {
        let mask = self.places.len() - 1;
        let mut at = (hole + 1) & mask;
        while self.places[at].entry != 0 {
            let home = self.places[at].hash as usize & mask;
            if (at.wrapping_sub(home) & mask) >= (at.wrapping_sub(hole) & mask) {
                self.places[hole] = self.places[at];
                hole = at;
            }
            at = (at + 1) & mask;
        }
        self.places[hole] = EMPTY;
    }

    /// Empties all slots.
    fn clear(&mut self) {
        self.places.fill(EMPTY);
    }
}
