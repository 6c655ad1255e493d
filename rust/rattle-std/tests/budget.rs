//! The budget of memory. It is that of the process, so this is one test.

use rattle_std::alloc::{Global, budget_of, set_budget};
use rattle_std::boxed::Box;
use rattle_std::collections::{BTreeSet, HashMap};
use rattle_std::crates::indexmap::IndexSet;
use rattle_std::prelude::Clone;
use rattle_std::string::String;
use rattle_std::vec::Vec;

const KIB: usize = 1024;

/// Returns how many bytes the budget still allows, up to a mebibyte.
fn left() -> usize {
    let fits = |bytes: usize| Vec::<u8>::with_capacity(Global, bytes).is_ok();
    let (mut low, mut high) = (0, KIB * KIB);
    while low < high {
        let middle = (low + high).div_ceil(2);
        (low, high) = if fits(middle) {
            (middle, high)
        } else {
            (low, middle - 1)
        };
    }
    low
}

#[test]
fn growth_past_the_budget_is_refused() {
    let before = Vec::<u8>::with_capacity(Global, 9 * KIB).unwrap();
    set_budget(Some(64 * KIB));
    assert_eq!(left(), 64 * KIB);
    let mut v = Vec::<u8>::with_capacity(Global, 40 * KIB).unwrap();
    assert_eq!(left(), 24 * KIB);
    assert!(v.reserve(50 * KIB).is_err() && Vec::clone(&v).is_ok());
    let text = String::from_utf8(Vec::from_slice(Global, &[b'a'; 20 * KIB]).unwrap()).unwrap();
    assert!(v.reserve(41 * KIB).is_err() && text.clone().is_err());
    assert_eq!(left(), 4 * KIB);
    let boxed = Box::new(Global, [0u8; 3 * KIB]).unwrap();
    assert!(Box::new(Global, [0u8; 2 * KIB]).is_err());
    assert_eq!(Box::into_inner(boxed).len(), 3 * KIB);
    drop(text.into_bytes());
    assert_eq!(left(), 24 * KIB);
    v.resize(60 * KIB, 0).unwrap_err();
    assert_eq!(v.into_std().capacity(), 40 * KIB);
    assert_eq!(left(), 64 * KIB);
    sets_are_counted();
    assert_eq!(left(), 64 * KIB);
    // Earlier allocations may be released without enlarging the budget for long.
    set_budget(None);
    drop(before);
    assert!(Vec::<u8>::with_capacity(Global, KIB * KIB).is_ok());
    numbers_of_bytes();
}

/// Fills sets until the budget ends.
fn sets_are_counted() {
    let (mut set, mut map, mut tree) = (
        IndexSet::new(Global),
        HashMap::new(Global),
        BTreeSet::new(Global),
    );
    assert!((0..64 * KIB).any(|number| set.insert(number).is_err()));
    drop(set);
    assert!((0..64 * KIB).any(|number| map.insert(number, ()).is_err()));
    drop(map);
    assert!((0..64 * KIB).any(|number| tree.insert(number).is_err()));
}

fn numbers_of_bytes() {
    for (text, bytes) in [
        ("0", Some(0)),
        ("123", Some(123)),
        ("5M", Some(5 << 20)),
        ("2G", Some(2 << 30)),
    ] {
        assert_eq!(budget_of(text), bytes);
    }
    for text in [
        "",
        "M",
        "-1",
        "+1",
        "1K",
        "1 G",
        "1g",
        "G1",
        "1.5G",
        "99999999999999999999",
        "18446744073709551615G",
    ] {
        assert_eq!(budget_of(text), None, "{text}");
    }
}
