//! The replacements of crates. Expected values are those of RFC 8259, of Unicode's data files, and
//! of Rust's own formatting.

use rattle_std::alloc::Global;
use rattle_std::crates::itoa::write_digits;
use rattle_std::crates::json::Writer;
use rattle_std::crates::unicode::properties::{
    GeneralCategory, GeneralCategoryGroup, is_alphabetic,
};
use rattle_std::crates::unicode::sets::{Set, by_name, normalize};
use rattle_std::crates::unicode::{case, perl};
use rattle_std::crates::unicode_ident::{is_xid_continue, is_xid_start};
use rattle_std::crates::unicode_width::UnicodeWidthChar;
use rattle_std::vec::Vec;

#[test]
fn digits() {
    let powers = (0..20).map(|power| 10u64.pow(power));
    let around = powers.flat_map(|it| [it - 1, it, it + 1, 9 * (it / 10) + 7]);
    for number in around.chain([u64::MAX, 99_999, 100_100, 12_345_678]) {
        let mut buf = [b'.'; 24];
        let from = write_digits(number, &mut buf, 22);
        assert_eq!(&buf[from..22], format!("{number}").as_bytes());
        assert_eq!(&buf[22..], b"..");
        assert!(buf[..from].iter().all(|byte| *byte == b'.'));
        let mut exact = vec![b'.'; 22 - from];
        assert_eq!(write_digits(number, &mut exact, 22 - from), 0);
        assert_eq!(exact, format!("{number}").as_bytes());
    }
}

#[test]
#[should_panic]
fn digits_that_have_no_room() {
    write_digits(1000, &mut [0; 8], 3);
}

#[test]
fn json_places_commas_and_escapes() {
    let mut json = Writer::new(Vec::from_slice(Global, b"> ").unwrap());
    json.begin_array().unwrap();
    json.begin_object().unwrap();
    json.key("a\"b").unwrap();
    json.u64(u64::MAX).unwrap();
    json.key("").unwrap();
    json.begin_array().unwrap();
    json.end_array().unwrap();
    json.end_object().unwrap();
    json.boolean(true).unwrap();
    json.boolean(false).unwrap();
    json.null().unwrap();
    json.string("\\/\u{8}\u{C}\n\r\t\0\u{1F}\u{7F}\u{20AC}")
        .unwrap();
    json.end_array().unwrap();
    let wanted = "> [{\"a\\\"b\":18446744073709551615,\"\":[]},true,false,null,\
                  \"\\\\/\\b\\f\\n\\r\\t\\u0000\\u001f\u{7F}\u{20AC}\"]";
    assert_eq!(std::str::from_utf8(&json.into_inner()).unwrap(), wanted);
}

fn has(set: Set, c: char) -> bool {
    let code = c as u32;
    let ranges = set.ranges(Global).unwrap();
    ranges
        .iter()
        .any(|(first, last)| (*first..=*last).contains(&code))
}

fn named(name: &str) -> Set {
    let name: std::vec::Vec<char> = name.chars().collect();
    by_name(&normalize(Global, &name).unwrap()).unwrap()
}

#[test]
fn sets_by_name() {
    for name in ["Greek", "greek", "Is_Greek", "GREK", "g r-e_e k"] {
        let set = named(name);
        assert!(has(set, '\u{3B1}') && !has(set, 'a') && !has(set, '\u{430}'));
    }
    for (name, within, beyond) in [
        ("Lu", "AZ\u{C9}\u{410}", "az1_"),
        ("L", "AZaz\u{C9}\u{430}\u{4E00}", "1_ \u{300}"),
        ("Uppercase_Letter", "A", "a"),
        ("Nd", "09\u{660}", "a\u{BD}"),
        (
            "White_Space",
            " \t\n\u{85}\u{A0}\u{2028}\u{3000}",
            "a\u{200B}",
        ),
        ("Han", "\u{4E00}\u{3007}", "\u{3042}a"),
        ("Alphabetic", "a\u{AA}\u{345}", "1_"),
        ("Emoji", "\u{1F600}#0", "a"),
        ("ASCII_Hex_Digit", "0fF", "g\u{FF21}"),
        ("XIDS", "a\u{2118}", "1_"),
    ] {
        let set = named(name);
        assert!(within.chars().all(|c| has(set, c)), "{name} {within}");
        assert!(!beyond.chars().any(|c| has(set, c)), "{name} {beyond}");
    }
    assert!(by_name(b"greekk").is_err() && by_name(b"").is_err() && by_name(b"age").is_err());
}

#[test]
fn sets_without_a_name() {
    assert_eq!(Set::Any.ranges(Global).unwrap().as_slice(), [(0, 0x10FFFF)]);
    assert_eq!(Set::Ascii.ranges(Global).unwrap().as_slice(), [(0, 127)]);
    assert!(has(Set::Assigned, 'a') && !has(Set::Assigned, '\u{378}'));
}

#[test]
fn names_are_normalized() {
    for (name, wanted) in [
        ("isc", "isc"),
        ("IS_C", "isc"),
        ("is", ""),
        ("A b-C_\u{E9}", "abc"),
        ("isLu", "lu"),
    ] {
        let name: std::vec::Vec<char> = name.chars().collect();
        assert_eq!(
            normalize(Global, &name).unwrap().as_slice(),
            wanted.as_bytes()
        );
    }
}

fn covers(ranges: &[(u32, u32)], c: char) -> bool {
    ranges
        .iter()
        .any(|(first, last)| (*first..=*last).contains(&(c as u32)))
}

#[test]
fn perl_classes() {
    let digit = perl::digit_ranges(Global).unwrap();
    let space = perl::space_ranges(Global).unwrap();
    let word = perl::word_ranges(Global).unwrap();
    assert!("09\u{660}".chars().all(|c| covers(&digit, c)) && !covers(&digit, '\u{B2}'));
    assert!(" \t\u{A0}".chars().all(|c| covers(&space, c)) && !covers(&space, 'a'));
    assert!(
        "az09_\u{300}\u{203F}\u{200D}"
            .chars()
            .all(|c| covers(&word, c))
            && !covers(&word, '-')
    );
}

#[test]
fn folding() {
    let pairs = case::fold_pairs();
    assert!(pairs.is_sorted());
    let pair = |a: char, b: char| {
        pairs.contains(&(a as u32, b as u32)) && pairs.contains(&(b as u32, a as u32))
    };
    assert!(
        pair('k', '\u{212A}')
            && pair('K', '\u{212A}')
            && pair('\u{3C3}', '\u{3C2}')
            && pair('\u{DF}', '\u{1E9E}')
    );
    assert!(!pair('a', 'b') && !pair('i', '\u{131}'));
    assert!(('a'..='z').all(|c| pair(c, c.to_ascii_uppercase())));
}

#[test]
fn identifiers_and_properties() {
    for c in (0..128u8).map(char::from) {
        assert_eq!(
            (is_xid_start(c), is_xid_continue(c)),
            (
                c.is_ascii_alphabetic(),
                c.is_ascii_alphanumeric() || c == '_'
            )
        );
        assert_eq!(is_alphabetic(c), c.is_ascii_alphabetic());
    }
    assert!(
        is_xid_start('\u{E9}')
            && is_xid_start('\u{4E00}')
            && !is_xid_start('\u{B7}')
            && is_xid_continue('\u{B7}')
    );
    assert!(!is_xid_start('\u{37A}') && !is_xid_continue('\u{20AC}'));
    let is_number = |c| GeneralCategoryGroup::Number.contains(GeneralCategory::for_char(c));
    assert!(is_number('1') && is_number('\u{BD}') && is_number('\u{2160}') && !is_number('a'));
    // No character that Rust's older tables have has lost a property.
    let known = ('\0'..=char::MAX).filter(|c| c.is_alphabetic());
    assert_eq!(known.filter(|c| !is_alphabetic(*c)).count(), 0);
}

#[test]
fn widths() {
    for (c, width) in [
        ('a', Some(1)),
        (' ', Some(1)),
        ('\u{E9}', Some(1)),
        ('\u{4E00}', Some(2)),
        ('\u{300}', Some(0)),
        ('\u{1F600}', Some(2)),
        ('\u{AC00}', Some(2)),
        ('\n', None),
        ('\u{7F}', None),
        ('\0', None),
        ('\u{9F}', None),
    ] {
        assert_eq!(c.width(), width, "{c:?}");
    }
}
