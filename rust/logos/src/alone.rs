//! The replacement for `ahead` in builds without `std`. In these builds a lexer finds no items
//! ahead of its own offset. Used by `lexer` and `run`.

use crate::Way;

/// The setting that determines where a lexer looks ahead. Without `std`, only [`Way::Part`] has an
/// effect.
pub(crate) struct Ahead {
    pub(crate) way: Way,
}

impl Ahead {
    pub(crate) fn new(_from: usize, _len: usize) -> Ahead {
        Ahead::by_way(Way::ByRule)
    }

    pub(crate) fn anew(&self, _from: usize, _len: usize) -> Ahead {
        Ahead { way: self.way }
    }

    pub(crate) const NONE: Ahead = Ahead { way: Way::Never };

    pub(crate) fn by_way(way: Way) -> Ahead {
        Ahead { way }
    }

    pub(crate) fn forget(&mut self) {}
}
