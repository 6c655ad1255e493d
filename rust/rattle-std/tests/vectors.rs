//! Vectors, texts and boxes behave as Rattle's contracts require.

use rattle_std::alloc::Global;
use rattle_std::boxed::Box;
use rattle_std::prelude::{AsciiLowercaseIn, Clone, Clones, ListIn, StringIn, VecIn};
use rattle_std::string::String;
use rattle_std::vec::Vec;
use rattle_std::{format, vec};

fn numbers(items: &[u32]) -> Vec<u32> {
    Vec::from_slice(Global, items).unwrap()
}

fn text(s: &str) -> String {
    String::from_str(Global, s).unwrap()
}

#[test]
fn new_vectors() {
    let none: Vec<u32> = Vec::new(Global);
    assert_eq!((none.len(), none.capacity(), none.is_empty()), (0, 0, true));
    let room: Vec<u32> = Vec::with_capacity(Global, 5).unwrap();
    assert!(room.is_empty() && room.capacity() >= 5);
    assert_eq!(numbers(&[3, 1, 2]).as_slice(), [3, 1, 2]);
    assert_eq!(*none.allocator(), Global);
}

#[test]
fn push_and_pop() {
    let mut v = Vec::new(Global);
    for number in 0..1000 {
        v.push(number).unwrap();
    }
    assert_eq!(
        (v.len(), v[0], v[999], v.last()),
        (1000, 0, 999, Some(&999))
    );
    assert!(v.capacity() <= 2048, "the capacity at most doubles");
    assert_eq!((v.pop(), v.len()), (Some(999), 999));
    let capacity = v.capacity();
    v.truncate(2);
    assert_eq!(v.as_slice(), [0, 1]);
    v.clear();
    assert_eq!((v.pop(), v.capacity()), (None, capacity));
}

#[test]
fn insert_and_dedup() {
    let mut v = numbers(&[1, 2, 3]);
    v.insert(0, 9).unwrap();
    v.insert(4, 8).unwrap();
    assert_eq!(v.as_slice(), [9, 1, 2, 3, 8]);
    let mut equal = numbers(&[1, 1, 2, 2, 1]);
    equal.dedup();
    assert_eq!(equal.as_slice(), [1, 2, 1]);
}

#[test]
fn extend_resize_append() {
    let mut v = numbers(&[1]);
    v.extend_from_slice(&[2, 3]).unwrap();
    v.extend([4, 5]).unwrap();
    assert_eq!(v.as_slice(), [1, 2, 3, 4, 5]);
    v.resize(8, 7).unwrap();
    v.resize(2, 0).unwrap();
    assert_eq!(v.as_slice(), [1, 2]);
    let mut other = numbers(&[6, 7]);
    v.append(&mut other).unwrap();
    assert_eq!(
        (v.as_slice(), other.is_empty()),
        ([1, 2, 6, 7].as_slice(), true)
    );
    let rest = v.split_off(3).unwrap();
    assert_eq!(
        (v.as_slice(), rest.as_slice()),
        ([1, 2, 6].as_slice(), [7].as_slice())
    );
}

#[test]
fn splice_replaces_a_range() {
    for (range, new, left, removed) in [
        (
            1..3,
            [8, 9].as_slice(),
            [0, 8, 9, 3, 4].as_slice(),
            [1, 2].as_slice(),
        ),
        (0..0, &[8], &[8, 0, 1, 2, 3, 4], &[]),
        (5..5, &[8], &[0, 1, 2, 3, 4, 8], &[]),
        (0..5, &[], &[], &[0, 1, 2, 3, 4]),
        (4..5, &[7, 8, 9], &[0, 1, 2, 3, 7, 8, 9], &[4]),
    ] {
        let mut v = numbers(&[0, 1, 2, 3, 4]);
        let gone = v.splice(range, new.iter().copied()).unwrap();
        assert_eq!((v.as_slice(), gone.as_slice()), (left, removed));
    }
}

#[test]
fn too_large_a_capacity_is_refused() {
    assert!(Vec::<u32>::with_capacity(Global, usize::MAX).is_err());
    assert!(numbers(&[1]).reserve(usize::MAX).is_err());
    assert!(text("a").reserve(usize::MAX).is_err());
}

#[test]
fn values_without_size() {
    let mut units = vec![in Global; (); 3].unwrap();
    units.push(()).unwrap();
    assert_eq!(units.len(), 4);
    assert_eq!(Box::into_inner(Box::new(Global, ()).unwrap()), ());
}

#[test]
fn vectors_compare_like_slices() {
    assert!(numbers(&[1, 2]) < numbers(&[1, 3]) && numbers(&[]) < numbers(&[0]));
    assert_eq!(
        format!(in Global; "{:?}", numbers(&[1, 2]))
            .unwrap()
            .as_str(),
        "[1, 2]"
    );
    assert_eq!(numbers(&[4, 5]).into_iter().sum::<u32>(), 9);
    let mut changed = numbers(&[4, 5]);
    for number in &mut changed {
        *number += 1;
    }
    assert_eq!(changed.clone().unwrap().as_slice(), [5, 6]);
}

#[test]
fn texts() {
    let mut s = text("ab");
    s.push('\u{20AC}').unwrap();
    s.push_str("cd").unwrap();
    assert_eq!((s.as_str(), s.len()), ("ab\u{20AC}cd", 7));
    s.truncate(5);
    assert_eq!((s.pop(), s.as_str()), (Some('\u{20AC}'), "ab"));
    s.write_fmt(format_args!("{:03}", 7)).unwrap();
    assert_eq!(s.clone().unwrap().into_bytes().as_slice(), b"ab007");
    s.clear();
    assert!(s.is_empty());
    assert_eq!(
        format!(in Global; "{}{:?}", text("a"), text("b\n"))
            .unwrap()
            .as_str(),
        "a\"b\\n\""
    );
}

#[test]
fn texts_of_bytes() {
    let bytes = Vec::from_slice(Global, "\u{E9}".as_bytes()).unwrap();
    assert_eq!(String::from_utf8(bytes).unwrap().as_str(), "\u{E9}");
    let bytes = Vec::from_slice(Global, b"ab\xFF").unwrap();
    let error = String::from_utf8(bytes).unwrap_err();
    assert_eq!(
        (
            error.utf8_error().valid_up_to(),
            error.into_bytes().as_slice()
        ),
        (2, b"ab\xFF".as_slice())
    );
}

#[test]
fn boxes() {
    let mut boxed = Box::new(Global, numbers(&[1])).unwrap();
    boxed.push(2).unwrap();
    let copy = boxed.clone().unwrap();
    assert_eq!(
        (copy.as_slice(), Box::into_inner(boxed).as_slice()),
        ([1, 2].as_slice(), [1, 2].as_slice())
    );
}

#[test]
fn methods_with_an_allocator() {
    let list: Vec<char> = "ab".chars().list_in(Global).unwrap();
    assert_eq!(list.as_slice(), ['a', 'b']);
    let joined: String = list.iter().copied().list_in(Global).unwrap();
    assert_eq!(joined.as_str(), "ab");
    assert_eq!([1, 2].vec_in(Global).unwrap().as_slice(), [1, 2]);
    assert_eq!(7.string_in(Global).unwrap().as_str(), "7");
    assert_eq!(
        "A\u{C9}z".ascii_lowercase_in(Global).unwrap().as_str(),
        "a\u{C9}z"
    );
    assert_eq!(Some(&text("a")).clones().unwrap().unwrap().as_str(), "a");
    assert_eq!(Clone::clone(&(1..=2u8)).unwrap(), 1..=2);
    assert_eq!(vec![in Global; 1, 2].unwrap().as_slice(), [1, 2]);
    assert_eq!(vec![in Global; 7; 2].unwrap().as_slice(), [7, 7]);
}
