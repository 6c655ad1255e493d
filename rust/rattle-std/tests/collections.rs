//! Sets and maps behave as Rattle's contracts require.

use rattle_std::alloc::Global;
use rattle_std::collections::{BTreeSet, HashMap, HashSet};
use rattle_std::crates::indexmap::{IndexMap, IndexSet};
use rattle_std::format;
use rattle_std::vec::Vec;

/// Returns numbers that come in no order and none twice: multiples of a number prime to the count.
fn mixed(count: u64) -> impl Iterator<Item = u64> {
    (0..count).map(move |k| (k * 7919) % count)
}

#[test]
fn a_btree_set_has_its_values_in_order() {
    let mut set = BTreeSet::new(Global);
    assert!(set.is_empty() && !set.contains(&0));
    for number in mixed(5000) {
        assert!(set.insert(number).unwrap());
        assert!(!set.insert(number).unwrap());
    }
    assert_eq!(set.len(), 5000);
    assert!(set.iter().copied().eq(0..5000) && (&set).into_iter().count() == 5000);
    assert!(set.contains(&4999) && !set.contains(&5000));
}

#[test]
fn an_index_set_keeps_the_order_of_its_values() {
    let mut set = IndexSet::new(Global);
    for (at, number) in mixed(3000).enumerate() {
        assert_eq!(set.insert_full(number).unwrap(), (at, true));
        assert_eq!(set.insert_full(number).unwrap(), (at, false));
    }
    assert!(set.iter().copied().eq(mixed(3000)) && set.len() == 3000);
    assert_eq!((set.get_index(1), set.get_index(3000)), (Some(&1919), None));
    assert_eq!(
        (set.get_index_of(&1919), set.get_index_of(&3000)),
        (Some(1), None)
    );
    assert!(!set.insert(5).unwrap() && set.contains(&5));
}

#[test]
fn an_index_set_is_truncated() {
    let mut set = IndexSet::new(Global);
    for number in 0..3000 {
        set.insert(number).unwrap();
    }
    set.truncate(1000);
    for number in 0..3000 {
        assert_eq!(set.get_index_of(&number), (number < 1000).then_some(number));
    }
    assert_eq!(set.insert_full(2000).unwrap(), (1000, true));
    set.truncate(5000);
    assert_eq!(set.len(), 1001);
    set.clear();
    assert!(set.is_empty() && !set.contains(&0));
    assert_eq!(set.insert_full(7).unwrap(), (0, true));
    assert_eq!(set.as_slice(), [7]);
    assert_eq!(set.into_iter().collect::<std::vec::Vec<_>>(), [7]);
}

#[test]
fn maps() {
    let mut map = HashMap::new(Global);
    map.reserve(3).unwrap();
    assert_eq!(map.insert("a", 1).unwrap(), None);
    assert_eq!(map.insert("a", 2).unwrap(), Some(1));
    assert_eq!((map.get("a"), map.get("b")), (Some(&2), None));
    assert!(map.contains_key("a") && !map.contains_key("b"));
    let mut map = IndexMap::new(Global);
    for number in mixed(1000) {
        map.insert(number, 2 * number).unwrap();
    }
    assert_eq!(map.insert(7, 15).unwrap(), Some(14));
    assert_eq!((map.get(&7), map.get(&1000)), (Some(&15), None));
    assert!(map.iter().map(|(key, _)| *key).eq(mixed(1000)));
}

#[test]
fn a_hash_set_is_shown_in_the_order_of_its_indices() {
    let mut set = HashSet::new(Global);
    set.reserve(3).unwrap();
    for text in ["c", "a", "b"] {
        assert!(set.insert(text).unwrap());
    }
    assert!(!set.insert("a").unwrap() && set.contains("b") && !set.contains("d"));
    assert_eq!(
        format!(in Global; "{set:?}").unwrap().as_str(),
        r#"{"c", "a", "b"}"#
    );
}

#[test]
fn an_index_set_spreads_keys_that_are_alike() {
    let mut tables = IndexSet::new(Global);
    let mut lists = IndexSet::new(Global);
    for number in 0..20_000u32 {
        let bits: [bool; 256] = core::array::from_fn(|k| k < 15 && number >> k & 1 == 1);
        assert!(tables.insert(bits).unwrap());
        let list = Vec::from_slice(Global, &[number << 16, 0, number]).unwrap();
        assert!(lists.insert(list).unwrap());
    }
    assert_eq!((tables.len(), lists.len()), (20_000, 20_000));
}
