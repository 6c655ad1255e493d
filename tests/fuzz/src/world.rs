//! The points of an input, and how trees lead from point to point.
//!
//! The bytes of a closed world are a whole input. Those of an open one are its beginning, and any
//! bytes may follow. Of these only the kinds matter that look-around assertions know, so the points
//! after the beginning are pairs: the kind of the byte before, and of the byte after.

use logos_codegen::logos_hir::hir::{Class, Hir, Look, Range};

/// The kinds of neighbors: none, a byte of a word, LF, CR, and any other byte.
const NONE: usize = 0;
const WORD: usize = 1;
const LF: usize = 2;
const CR: usize = 3;
const OTHER: usize = 4;
const KINDS: usize = 5;

/// A set of points.
#[derive(Clone, PartialEq)]
pub struct Set(Vec<u64>);

impl Set {
    fn empty(points: usize) -> Set {
        Set(vec![0; points.div_ceil(64)])
    }

    fn add(&mut self, point: usize) {
        self.0[point / 64] |= 1 << (point % 64);
    }

    fn has(&self, point: usize) -> bool {
        self.0[point / 64] >> (point % 64) & 1 == 1
    }

    fn is_empty(&self) -> bool {
        self.0.iter().all(|word| *word == 0)
    }

    /// Adds the points of another set, and returns whether any was new.
    fn join(&mut self, other: &Set) -> bool {
        let mut is_new = false;
        for (word, more) in self.0.iter_mut().zip(&other.0) {
            is_new |= more & !*word != 0;
            *word |= more;
        }
        is_new
    }

    fn points(&self) -> impl Iterator<Item = usize> + '_ {
        (0..self.0.len() * 64).filter(|point| self.0[point / 64] != 0 && self.has(*point))
    }
}

/// The bytes of an input, and whether others may follow.
pub struct World<'w> {
    bytes: &'w [u8],
    is_open: bool,
}

/// Returns the kind of a byte.
fn kind(byte: u8) -> usize {
    match byte {
        b'0'..=b'9' | b'A'..=b'Z' | b'a'..=b'z' | b'_' => WORD,
        b'\n' => LF,
        b'\r' => CR,
        _ => OTHER,
    }
}

/// Returns whether a look-around assertion holds between two neighbors.
fn holds(look: Look, before: usize, after: usize) -> bool {
    match look {
        Look::Start => before == NONE,
        Look::End => after == NONE,
        Look::StartLF => before == NONE || before == LF,
        Look::EndLF => after == NONE || after == LF,
        Look::StartCRLF => before == NONE || before == LF || (before == CR && after != LF),
        Look::EndCRLF => after == NONE || after == CR || (after == LF && before != CR),
        Look::WordAscii => (before == WORD) != (after == WORD),
        Look::WordAsciiNegate => (before == WORD) == (after == WORD),
    }
}

/// Returns whether a number is in one of the ranges.
fn is_in(ranges: &[Range], number: u32) -> bool {
    ranges
        .iter()
        .any(|it| it.first <= number && number <= it.last)
}

/// Returns whether some scalar value from `first` to `last` is in one of the ranges.
fn meets(ranges: &[Range], first: u32, last: u32) -> bool {
    let is_met = |first: u32, last: u32| {
        let met = |it: &Range| it.first.max(first) <= it.last.min(last);
        ranges.iter().any(met)
    };
    is_met(first, last.min(0xD7FF)) || is_met(first.max(0xE000), last.min(0x10_FFFF))
}

/// Returns the number of bytes of a character that begins with this byte, and the bits in it.
fn lead(byte: u8) -> Option<(usize, u32)> {
    match byte {
        0..=0x7F => Some((1, u32::from(byte))),
        0xC2..=0xDF => Some((2, u32::from(byte & 0x1F))),
        0xE0..=0xEF => Some((3, u32::from(byte & 0x0F))),
        0xF0..=0xF4 => Some((4, u32::from(byte & 0x07))),
        _ => None,
    }
}

/// Returns whether some character of the ranges begins with these bytes, and has more.
fn begins(ranges: &[Range], bytes: &[u8]) -> bool {
    let Some((length, mut value)) = lead(bytes[0]) else {
        return false;
    };
    let rest = &bytes[1..];
    if bytes.len() >= length || !rest.iter().all(|byte| byte & 0xC0 == 0x80) {
        return false;
    }
    for byte in rest {
        value = value << 6 | u32::from(byte & 0x3F);
    }
    let missing = 6 * (length - bytes.len());
    let (first, last) = (value << missing, (value << missing) | ((1 << missing) - 1));
    let least = [0, 0, 0x80, 0x800, 0x1_0000][length];
    meets(ranges, first.max(least), last)
}

impl<'w> World<'w> {
    pub fn closed(bytes: &'w [u8]) -> World<'w> {
        World {
            bytes,
            is_open: false,
        }
    }

    pub fn open(bytes: &'w [u8]) -> World<'w> {
        World {
            bytes,
            is_open: true,
        }
    }

    fn points(&self) -> usize {
        self.bytes.len() + KINDS * KINDS
    }

    fn none(&self) -> Set {
        Set::empty(self.points())
    }

    /// Adds the points after all bytes: the kind before is this one, and the kind after is any.
    fn add_after(&self, to: &mut Set, before: usize) {
        let kinds = if self.is_open { KINDS } else { 1 };
        for after in 0..kinds {
            to.add(self.bytes.len() + KINDS * before + after);
        }
    }

    /// Adds the points at a byte offset.
    fn arrive(&self, to: &mut Set, at: usize) {
        match at < self.bytes.len() {
            true => to.add(at),
            false => self.add_after(
                to,
                at.checked_sub(1).map_or(NONE, |at| kind(self.bytes[at])),
            ),
        }
    }

    /// Returns the points at a byte offset.
    pub fn start(&self, at: usize) -> Set {
        let mut set = self.none();
        self.arrive(&mut set, at);
        set
    }

    /// Returns whether a set of a closed world has the point at a byte offset.
    pub fn has_point(&self, set: &Set, at: usize) -> bool {
        match at < self.bytes.len() {
            true => set.has(at),
            false => self.is_past(set),
        }
    }

    /// Returns whether a set has a point after all bytes.
    pub fn is_past(&self, set: &Set) -> bool {
        (self.bytes.len()..self.points()).any(|point| set.has(point))
    }

    /// Returns the kinds before and after a point.
    fn sides(&self, point: usize) -> (usize, usize) {
        match point.checked_sub(self.bytes.len()) {
            Some(pair) => (pair / KINDS, pair % KINDS),
            None => {
                let before = point.checked_sub(1).map_or(NONE, |at| kind(self.bytes[at]));
                (before, kind(self.bytes[point]))
            }
        }
    }

    /// Returns the points to which a tree leads from those of a set, or nothing if that takes too
    /// long.
    pub fn step(&self, tree: &Hir, from: &Set, fuel: &mut u64) -> Option<Set> {
        *fuel = fuel.checked_sub(1 + from.0.len() as u64)?;
        match tree {
            Hir::Empty => Some(from.clone()),
            Hir::Literal(bytes) => Some(self.literal(bytes, from)),
            Hir::Class(Class::Bytes(ranges)) => Some(self.byte_class(ranges, from)),
            Hir::Class(Class::Characters(ranges)) => Some(self.char_class(ranges, from)),
            Hir::Look(look) => Some(self.look(*look, from)),
            Hir::Repetition { min, max, sub, .. } => self.repetition(*min, *max, sub, from, fuel),
            Hir::Capture(sub) => self.step(sub, from, fuel),
            Hir::Concat(parts) => {
                let mut at = from.clone();
                for part in parts.iter() {
                    at = self.step(part, &at, fuel)?;
                }
                Some(at)
            }
            Hir::Alternation(branches) => {
                let mut to = self.none();
                for branch in branches.iter() {
                    to.join(&self.step(branch, from, fuel)?);
                }
                Some(to)
            }
        }
    }

    fn literal(&self, bytes: &[u8], from: &Set) -> Set {
        let mut at = from.clone();
        for byte in bytes {
            let one = u32::from(*byte);
            at = self.byte_class(&[Range::new(one, one)], &at);
        }
        at
    }

    fn byte_class(&self, ranges: &[Range], from: &Set) -> Set {
        let mut to = self.none();
        for point in from.points() {
            match self.bytes.get(point) {
                Some(byte) if is_in(ranges, u32::from(*byte)) => self.arrive(&mut to, point + 1),
                Some(_) => {}
                None => {
                    let after = self.sides(point).1;
                    if (0..=255).any(|byte| kind(byte) == after && is_in(ranges, u32::from(byte))) {
                        self.add_after(&mut to, after);
                    }
                }
            }
        }
        to
    }

    fn char_class(&self, ranges: &[Range], from: &Set) -> Set {
        let mut to = self.none();
        for point in from.points() {
            match self.bytes.get(point..) {
                Some(rest) if !rest.is_empty() => self.char_at(ranges, rest, point, &mut to),
                _ => self.char_after(ranges, self.sides(point).1, &mut to),
            }
        }
        to
    }

    /// Adds where a character that begins among the bytes leads to.
    fn char_at(&self, ranges: &[Range], rest: &[u8], point: usize, to: &mut Set) {
        let Some((length, _)) = lead(rest[0]) else {
            return;
        };
        if let Some(bytes) = rest.get(..length) {
            let text = std::str::from_utf8(bytes).ok();
            let character = text.and_then(|text| text.chars().next());
            if character.is_some_and(|it| is_in(ranges, u32::from(it))) {
                self.arrive(to, point + length);
            }
        } else if self.is_open && begins(ranges, rest) {
            self.add_after(to, OTHER);
        }
    }

    /// Adds where a character after all bytes leads to, if its first byte has this kind.
    fn char_after(&self, ranges: &[Range], first: usize, to: &mut Set) {
        let is_ascii = |byte: u8| kind(byte) == first && is_in(ranges, u32::from(byte));
        let is_long = first == OTHER && meets(ranges, 0x80, 0x10_FFFF);
        if is_long || (0..=127).any(is_ascii) {
            self.add_after(to, first);
        }
    }

    fn look(&self, look: Look, from: &Set) -> Set {
        let mut to = self.none();
        for point in from.points() {
            let (before, after) = self.sides(point);
            if holds(look, before, after) {
                to.add(point);
            }
        }
        to
    }

    fn repetition(
        &self,
        min: u32,
        max: Option<u32>,
        body: &Hir,
        from: &Set,
        fuel: &mut u64,
    ) -> Option<Set> {
        let mut at = from.clone();
        for _ in 0..min {
            let next = self.step(body, &at, fuel)?;
            if next == at || next.is_empty() {
                at = next;
                break;
            }
            at = next;
        }
        let (mut to, mut count) = (at.clone(), min);
        while max.is_none_or(|max| count < max) {
            at = self.step(body, &at, fuel)?;
            count = count.saturating_add(1);
            if !to.join(&at) {
                break;
            }
        }
        Some(to)
    }
}
