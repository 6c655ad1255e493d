//! Replaces the kit's `unicode`: named sets of characters, and simple case folding.
//!
//! The data is in `unicode_tables.rs`. A program in Rattle generates this file from the kit's
//! crates.

pub(super) mod ranges;

pub(super) use ranges::{contains, number_at};

/// The named sets of code points, such as `Greek` in `\p{Greek}`.
pub mod sets {
    use super::ranges::ranges_of;
    use crate::alloc::{AllocError, Global};
    use crate::crates::unicode_tables::{ASSIGNED, NAMES};
    use crate::vec::Vec;

    /// A named set of code points.
    #[derive(Clone, Copy, Debug, PartialEq, Eq, Hash)]
    pub enum Set {
        /// All code points.
        Any,
        /// The ASCII code points.
        Ascii,
        /// The code points that Unicode has assigned.
        Assigned,
        /// The code points with a binary property, a general category or a script. The value is the
        /// number of the set in the tables.
        Named(u16),
    }

    impl Set {
        /// Returns the code points of the set as sorted ranges. Each range consists of its first
        /// and its last code point, and may contain surrogates.
        ///
        /// # Errors
        ///
        /// Returns `AllocError` if memory runs out.
        pub fn ranges(self, alloc: Global) -> Result<Vec<(u32, u32)>, AllocError> {
            match self {
                Set::Any => Vec::from_slice(alloc, &[(0, 0x10_FFFF)]),
                Set::Ascii => Vec::from_slice(alloc, &[(0, 0x7F)]),
                Set::Assigned => ranges_of(alloc, ASSIGNED),
                Set::Named(number) => ranges_of(alloc, usize::from(number)),
            }
        }
    }

    /// The error for a name that no set has.
    #[derive(Clone, Copy, Debug, PartialEq, Eq, Hash)]
    pub enum LookupError {
        /// No binary property, general category or script has the name.
        PropertyNotFound,
    }

    /// Returns the set of the binary property, the general category or the script with the
    /// normalized name `name`.
    ///
    /// # Errors
    ///
    /// Returns `PropertyNotFound` if no binary property, general category or script has the name.
    pub fn by_name(name: &[u8]) -> Result<Set, LookupError> {
        match NAMES.binary_search_by(|(it, _)| it.as_bytes().cmp(name)) {
            Ok(at) => Ok(Set::Named(NAMES[at].1)),
            Err(_) => Err(LookupError::PropertyNotFound),
        }
    }

    /// Returns the normalized form of `name`, in which names are compared.
    ///
    /// The normalized form is in lower case, without the prefix `is`, spaces, `_`, `-` and
    /// characters other than ASCII. Only `isc` keeps its prefix.
    ///
    /// # Errors
    ///
    /// Returns `AllocError` if memory runs out.
    pub fn normalize(alloc: Global, name: &[char]) -> Result<Vec<u8>, AllocError> {
        let (has_prefix, rest) = match name {
            ['i' | 'I', 's' | 'S', rest @ ..] => (true, rest),
            _ => (false, name),
        };
        let mut out = Vec::new(alloc);
        for character in rest {
            if character.is_ascii() && !matches!(character, ' ' | '_' | '-') {
                out.push(character.to_ascii_lowercase() as u8)?;
            }
        }
        // `isc` is short for ISO_Comment, where `c` is a general category.
        if has_prefix && out.as_slice() == b"c" {
            return Vec::from_slice(alloc, b"isc");
        }
        Ok(out)
    }
}

/// The sets of code points that `\d`, `\s` and `\w` match.
pub mod perl {
    use super::ranges::ranges_of;
    use crate::alloc::{AllocError, Global};
    use crate::crates::unicode_tables::{DIGIT, SPACE, WORD};
    use crate::vec::Vec;

    /// Returns the code points that `\d` matches as sorted ranges. Each range consists of its first
    /// and its last code point.
    ///
    /// # Errors
    ///
    /// Returns `AllocError` if memory runs out.
    pub fn digit_ranges(alloc: Global) -> Result<Vec<(u32, u32)>, AllocError> {
        ranges_of(alloc, DIGIT)
    }

    /// Returns the code points that `\s` matches, in the form of [`digit_ranges`].
    ///
    /// # Errors
    ///
    /// Returns `AllocError` if memory runs out.
    pub fn space_ranges(alloc: Global) -> Result<Vec<(u32, u32)>, AllocError> {
        ranges_of(alloc, SPACE)
    }

    /// Returns the code points that `\w` matches, in the form of [`digit_ranges`].
    ///
    /// # Errors
    ///
    /// Returns `AllocError` if memory runs out.
    pub fn word_ranges(alloc: Global) -> Result<Vec<(u32, u32)>, AllocError> {
        ranges_of(alloc, WORD)
    }
}

/// The simple case folding of characters.
pub mod case {
    use super::number_at;
    use crate::crates::unicode_tables::{FOLD_COUNT, FOLDS};

    static PAIRS: [(u32, u32); FOLD_COUNT] = pairs();

    /// Returns all pairs of characters that simple case folding makes equal. Each pair occurs in
    /// both orders, and the pairs are sorted.
    pub fn fold_pairs() -> &'static [(u32, u32)] {
        &PAIRS
    }

    /// Decodes the pairs of the table `FOLDS` at compile time.
    const fn pairs() -> [(u32, u32); FOLD_COUNT] {
        let mut pairs = [(0, 0); FOLD_COUNT];
        let (mut pair, mut at, mut first) = (0, 0, 0);
        while pair < FOLD_COUNT {
            let (step, after) = number_at(FOLDS, at);
            let (difference, next) = number_at(FOLDS, after);
            first += step;
            let half = difference.div_ceil(2);
            let is_above = difference.is_multiple_of(2);
            pairs[pair] = (first, if is_above { first + half } else { first - half });
            at = next;
            pair += 1;
        }
        pairs
    }
}

/// The properties of characters that the crates need.
pub mod properties {
    use super::contains;
    use super::ranges::{ALPHABETIC, NUMBER};

    /// A general category of characters. The crates need to know only whether a character is a
    /// number, so all other categories are equal.
    #[derive(Clone, Copy, Debug, PartialEq, Eq)]
    pub struct GeneralCategory {
        is_number: bool,
    }

    impl GeneralCategory {
        /// Returns the general category of the character `c`.
        pub fn for_char(c: char) -> GeneralCategory {
            GeneralCategory {
                is_number: contains(&NUMBER, c),
            }
        }
    }

    /// A group of general categories.
    #[derive(Clone, Copy, Debug, PartialEq, Eq)]
    pub enum GeneralCategoryGroup {
        /// The decimal numbers, the letter numbers and the other numbers.
        Number,
    }

    impl GeneralCategoryGroup {
        /// Returns whether the category `value` is in the group.
        pub fn contains(self, value: GeneralCategory) -> bool {
            match self {
                GeneralCategoryGroup::Number => value.is_number,
            }
        }
    }

    /// Returns whether a character has Unicode's property `Alphabetic`.
    pub fn is_alphabetic(c: char) -> bool {
        contains(&ALPHABETIC, c)
    }
}
