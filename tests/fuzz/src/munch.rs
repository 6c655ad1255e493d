//! The definition of maximal munch, read off the trees of the leaves: which spans of an input a
//! tree matches, and which beginnings of an input can still grow. It has no automaton, no graph and
//! no code, and its cost does not matter.

use crate::world::{Set, World};
use logos_codegen::logos_hir::hir::Hir;
use logos_codegen::pattern::Pattern;

/// A leaf, as the definition needs it.
pub struct Rule<'t> {
    pub tree: &'t Hir,
    pub priority: usize,
    /// Whether its matches have no item.
    pub skips: bool,
    pub calls_back: bool,
}

/// The answer of a callback.
#[derive(Clone, Copy, PartialEq)]
pub enum Answer {
    Emit,
    Skip,
    Error,
}

/// An item: a token of a leaf, or an error, of a leaf if its callback refused the match.
#[derive(Clone, Copy, Debug, PartialEq)]
pub struct Found {
    pub is_error: bool,
    pub leaf: Option<usize>,
    pub from: usize,
    pub to: usize,
}

/// Why there are no items.
#[derive(Debug)]
pub enum Stop {
    /// The definition would take too long.
    Fuel,
    /// The definition refuses the leaves: two match one span with the highest priority there.
    Ambiguous {
        leaves: [usize; 2],
        span: [usize; 2],
    },
}

/// Returns what every callback of the fuzzer answers.
pub fn answer(leaf: usize, slice: &[u8]) -> Answer {
    let sum = slice
        .iter()
        .fold(leaf, |sum, byte| sum + usize::from(*byte));
    match (sum + slice.len()) % 5 {
        0 => Answer::Skip,
        1 => Answer::Error,
        _ => Answer::Emit,
    }
}

/// Returns whether the tree matches the empty string somewhere, read off its form.
pub fn is_passable(tree: &Hir) -> bool {
    match tree {
        Hir::Empty | Hir::Look(_) => true,
        Hir::Literal(_) | Hir::Class(_) => false,
        Hir::Repetition { min, sub, .. } => *min == 0 || is_passable(sub),
        Hir::Capture(sub) => is_passable(sub),
        Hir::Concat(parts) => parts.iter().all(is_passable),
        Hir::Alternation(parts) => parts.iter().any(is_passable),
    }
}

/// Returns whether the tree can meet a look-around assertion before its first byte.
pub fn leads(tree: &Hir) -> bool {
    match tree {
        Hir::Look(_) => true,
        Hir::Empty | Hir::Literal(_) | Hir::Class(_) => false,
        Hir::Repetition { sub, .. } | Hir::Capture(sub) => leads(sub),
        Hir::Alternation(parts) => parts.iter().any(leads),
        Hir::Concat(parts) => {
            let reached = parts.iter().position(|part| !is_passable(part));
            let count = reached.map_or(parts.len(), |at| at + 1);
            parts.iter().take(count).any(leads)
        }
    }
}

/// Returns the rule of a leaf.
pub fn rule<'t>(pattern: &'t Pattern<'_>, priority: usize) -> Rule<'t> {
    Rule {
        tree: pattern.hir(),
        priority,
        skips: false,
        calls_back: false,
    }
}

/// The definition, for the leaves of one source and one input.
pub struct Munch<'m> {
    pub rules: &'m [Rule<'m>],
    pub is_text: bool,
    pub input: &'m [u8],
}

impl Munch<'_> {
    /// Returns all items of the input.
    pub fn items(&self, fuel: &mut u64) -> Result<Vec<Found>, Stop> {
        let (mut items, mut from) = (Vec::new(), 0);
        while from < self.input.len() {
            let to = match self.best(from, fuel)? {
                Some((leaf, to)) => {
                    items.extend(self.item(leaf, from, to));
                    to
                }
                None => {
                    let to = self.stop(from, fuel)?;
                    items.push(Found {
                        is_error: true,
                        leaf: None,
                        from,
                        to,
                    });
                    to
                }
            };
            from = to;
        }
        Ok(items)
    }

    /// Returns the item of a match, unless it is left out.
    fn item(&self, leaf: usize, from: usize, to: usize) -> Option<Found> {
        let rule = &self.rules[leaf];
        let answered = match rule.calls_back {
            true => answer(leaf, &self.input[from..to]),
            false => Answer::Emit,
        };
        let is_error = answered == Answer::Error;
        let is_left_out = answered == Answer::Skip || (rule.skips && !is_error);
        (!is_left_out).then_some(Found {
            is_error,
            leaf: Some(leaf),
            from,
            to,
        })
    }

    /// Returns the leaf and the end of the longest match from a point that is not empty. No two
    /// leaves may match any span from there with the highest priority.
    fn best(&self, from: usize, fuel: &mut u64) -> Result<Option<(usize, usize)>, Stop> {
        let world = World::closed(self.input);
        let start = world.start(from);
        let mut ends = Vec::new();
        for rule in self.rules {
            ends.push(world.step(rule.tree, &start, fuel).ok_or(Stop::Fuel)?);
        }
        let mut best = None;
        for to in from + 1..=self.input.len() {
            if let Some(leaf) = self.first(&world, &ends, from, to)? {
                best = Some((leaf, to));
            }
        }
        Ok(best)
    }

    /// Returns the leaf with the highest priority that matches a span.
    fn first(
        &self,
        world: &World<'_>,
        ends: &[Set],
        from: usize,
        to: usize,
    ) -> Result<Option<usize>, Stop> {
        let matches = |leaf: &usize| world.has_point(&ends[*leaf], to);
        let leaves: Vec<_> = (0..self.rules.len()).filter(matches).collect();
        let Some(&first) = leaves.iter().max_by_key(|leaf| self.rules[**leaf].priority) else {
            return Ok(None);
        };
        let priority = self.rules[first].priority;
        let others = |leaf: &&usize| **leaf != first && self.rules[**leaf].priority == priority;
        match leaves.iter().find(others) {
            None => Ok(Some(first)),
            Some(&second) => Err(Stop::Ambiguous {
                leaves: [first, second],
                span: [from, to],
            }),
        }
    }

    /// Returns the end of the error at a point.
    fn stop(&self, from: usize, fuel: &mut u64) -> Result<usize, Stop> {
        let mut to = from + 1;
        while to <= self.input.len() && self.grows(&self.input[from..to], fuel)? {
            to += 1;
        }
        let mut to = (to - 1).max(from + 1);
        while self.is_text && !is_boundary(self.input, to) {
            to += 1;
        }
        Ok(to)
    }

    /// Returns whether a byte string can be continued so that a leaf matches all of it.
    fn grows(&self, begun: &[u8], fuel: &mut u64) -> Result<bool, Stop> {
        let world = World::open(begun);
        let start = world.start(0);
        for rule in self.rules {
            let ends = world.step(rule.tree, &start, fuel).ok_or(Stop::Fuel)?;
            if world.is_past(&ends) {
                return Ok(true);
            }
        }
        Ok(false)
    }
}

/// Returns whether a point of a text is between characters.
fn is_boundary(text: &[u8], at: usize) -> bool {
    text.get(at).is_none_or(|byte| byte & 0xC0 != 0x80)
}
