//! Replaces the kit's `unicode_ident`: the characters that identifiers may contain.

use super::unicode::{contains, ranges};

/// Returns whether a character has Unicode's property `XID_Start`. An identifier may begin with
/// such a character.
#[inline]
pub fn is_xid_start(ch: char) -> bool {
    if ch.is_ascii() {
        return ch.is_ascii_alphabetic();
    }
    contains(&ranges::XID_START, ch)
}

/// Returns whether a character has Unicode's property `XID_Continue`. An identifier may contain
/// such a character.
#[inline]
pub fn is_xid_continue(ch: char) -> bool {
    if ch.is_ascii() {
        return ch.is_ascii_alphanumeric() || ch == '_';
    }
    contains(&ranges::XID_CONTINUE, ch)
}
