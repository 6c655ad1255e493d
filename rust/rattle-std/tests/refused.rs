//! A call whose request for memory is refused returns an error and changes nothing.
//!
//! The allocator of this program refuses one request of a thread: the first one, the second one and
//! so on, until a call makes fewer. Then each call must return an error, and its vector, text or
//! set must be unchanged.

use rattle_std::alloc::{AllocError, Global};
use rattle_std::boxed::Box;
use rattle_std::collections::{BTreeSet, HashMap};
use rattle_std::crates::indexmap::IndexSet;
use rattle_std::crates::json::Writer;
use rattle_std::crates::unicode::{perl, sets};
use rattle_std::io::{self, BufWriter, Read};
use rattle_std::prelude::{AsciiLowercaseIn, Clone, ListIn, StringIn};
use rattle_std::string::String;
use rattle_std::vec::Vec;
use rattle_std::{format, vec};
use std::alloc::{GlobalAlloc, Layout, System};
use std::cell::Cell;

thread_local! {
    /// How many more requests of this thread are granted before one is refused.
    static GRANTED: Cell<usize> = const { Cell::new(usize::MAX) };
}

struct Refusing;

fn is_refused() -> bool {
    let left = GRANTED.get();
    GRANTED.set(if left == 0 {
        usize::MAX
    } else {
        left.saturating_sub(usize::from(left != usize::MAX))
    });
    left == 0
}

// SAFETY: each request is refused or passed to the system's allocator.
unsafe impl GlobalAlloc for Refusing {
    unsafe fn alloc(&self, layout: Layout) -> *mut u8 {
        if is_refused() {
            std::ptr::null_mut()
        } else {
            unsafe { System.alloc(layout) }
        }
    }

    unsafe fn dealloc(&self, block: *mut u8, layout: Layout) {
        unsafe { System.dealloc(block, layout) }
    }

    unsafe fn realloc(&self, block: *mut u8, layout: Layout, size: usize) -> *mut u8 {
        if is_refused() {
            std::ptr::null_mut()
        } else {
            unsafe { System.realloc(block, layout, size) }
        }
    }
}

#[global_allocator]
static ALLOCATOR: Refusing = Refusing;

/// Makes a call with its first request refused, with its second one, and so on. Each call is on
/// something new that `make` returns. Returns how many requests were refused.
fn refuse_each<T, R, E>(
    make: impl Fn() -> T,
    call: impl Fn(&mut T) -> Result<R, E>,
    check: impl Fn(&T),
) -> usize {
    for refused in 0..100 {
        let mut it = make();
        GRANTED.set(refused);
        let answer = call(&mut it);
        let is_done = GRANTED.replace(usize::MAX) != usize::MAX;
        assert_eq!(answer.is_ok(), is_done, "with request {refused} refused");
        if is_done {
            return refused;
        }
        check(&it);
    }
    panic!("a call has 100 requests");
}

fn full() -> Vec<u64> {
    let mut v = Vec::with_capacity(Global, 4).unwrap();
    v.extend([1, 2, 3, 4]).unwrap();
    assert_eq!(v.capacity(), 4);
    v
}

/// Tests a call that changes the vector 1, 2, 3, 4, which has room for no more.
fn on_vector<R, E>(call: impl Fn(&mut Vec<u64>) -> Result<R, E>) -> usize {
    refuse_each(full, call, |v| assert_eq!(v.as_slice(), [1, 2, 3, 4]))
}

#[test]
fn vectors() {
    assert_eq!(on_vector(|v| v.push(5)), 1);
    assert_eq!(on_vector(|v| v.insert(0, 5)), 1);
    assert_eq!(on_vector(|v| v.reserve(1)), 1);
    assert_eq!(on_vector(|v| v.resize(9, 0)), 1);
    assert_eq!(on_vector(|v| v.extend_from_slice(&[5])), 1);
    assert_eq!(on_vector(|v| v.extend([5].into_iter())), 1);
    assert_eq!(on_vector(|v| v.split_off(2)), 1);
    assert_eq!(on_vector(|v| v.splice(1..2, [7, 8])), 3);
    assert_eq!(on_vector(|v| v.clone()), 1);
    let pair = || (full(), full());
    let is_unchanged = |(a, b): &(Vec<u64>, Vec<u64>)| assert_eq!((a.len(), b.len()), (4, 4));
    assert_eq!(refuse_each(pair, |(a, b)| a.append(b), is_unchanged), 1);
}

/// Tests a call that makes something.
fn on_nothing<R, E>(call: impl Fn() -> Result<R, E>) -> usize {
    refuse_each(|| (), |()| call(), |()| {})
}

#[test]
fn what_is_made() {
    assert_eq!(on_nothing(|| Vec::<u8>::with_capacity(Global, 1)), 1);
    assert_eq!(on_nothing(|| Vec::from_slice(Global, b"ab")), 1);
    assert_eq!(on_nothing(|| Box::new(Global, 7)), 1);
    assert_eq!(on_nothing(|| vec![in Global; 1, 2]), 1);
    assert_eq!(on_nothing(|| vec![in Global; 1; 2]), 1);
    assert_eq!(on_nothing(|| String::from_str(Global, "a")), 1);
    assert_eq!(on_nothing(|| format!(in Global; "{:>20}", 7)), 3);
    assert_eq!(on_nothing(|| 7.string_in(Global)), 1);
    assert_eq!(on_nothing(|| "Ab".ascii_lowercase_in(Global)), 1);
    assert_eq!(on_nothing(|| "ab".chars().list_in::<String>(Global)), 1);
    assert_eq!(on_nothing(|| sets::normalize(Global, &['a'; 9])), 2);
    assert!(on_nothing(|| perl::word_ranges(Global)) > 5);
    assert_eq!(on_nothing(|| BufWriter::new(Global, Vec::new(Global))), 1);
    assert_eq!(
        on_nothing(|| io::read_to_string(Global, b"ab".as_slice())),
        1
    );
}

#[test]
fn a_refused_value_comes_back() {
    let mut v = full();
    GRANTED.set(0);
    assert_eq!(v.push(9).unwrap_err().value, 9);
    GRANTED.set(0);
    assert_eq!(Box::new(Global, "text").unwrap_err().value, "text");
    let mut map = HashMap::new(Global);
    GRANTED.set(0);
    assert_eq!(map.insert(1, "one").unwrap_err().value, (1, "one"));
    GRANTED.set(usize::MAX);
}

#[test]
fn texts() {
    let text = || String::from_str(Global, "12345678").unwrap();
    let is_unchanged = |text: &String| assert_eq!(text.as_str(), "12345678");
    assert_eq!(refuse_each(text, |it| it.push('9'), is_unchanged), 1);
    assert_eq!(refuse_each(text, |it| it.push_str("9"), is_unchanged), 1);
    assert_eq!(refuse_each(text, |it| it.reserve(1), is_unchanged), 1);
    assert_eq!(refuse_each(text, |it| it.clone(), is_unchanged), 1);
    assert_eq!(
        refuse_each(text, |it| it.write_fmt(format_args!("{}", 9)), is_unchanged),
        1
    );
}

/// Adds numbers to something until memory is refused, for each request that can be refused, and
/// tests that it has exactly those that it reported as added.
fn fill<T>(
    new: impl Fn() -> T,
    insert: impl Fn(&mut T, u32) -> bool,
    has: impl Fn(&T, u32) -> bool,
) {
    let mut refused = 0;
    for granted in 0..30 {
        let mut it = new();
        GRANTED.set(granted);
        let mut added: std::vec::Vec<bool> = std::vec::Vec::new();
        let mut all = [false; 1200];
        for number in 0..1200 {
            all[number as usize] = insert(&mut it, number * 7 % 1200);
        }
        GRANTED.set(usize::MAX);
        added.extend(all);
        refused += added.iter().filter(|is_added| !**is_added).count();
        for (number, is_added) in (0..1200).zip(added) {
            assert_eq!(has(&it, number * 7 % 1200), is_added);
        }
    }
    assert!(refused > 3);
}

#[test]
fn sets_and_maps() {
    fill(
        || IndexSet::new(Global),
        |it, n| it.insert(n).is_ok(),
        |it, n| it.contains(&n),
    );
    fill(
        || BTreeSet::new(Global),
        |it, n| it.insert(n).is_ok(),
        |it, n| it.contains(&n),
    );
    fill(
        || HashMap::new(Global),
        |it, n| it.insert(n, n).is_ok(),
        |it, n| it.get(&n) == Some(&n),
    );
}

/// Tests a call of a writer whose first, second and so on request is refused.
fn on_writer(call: fn(&mut Writer) -> Result<(), AllocError>) {
    for granted in 0.. {
        let mut json = Writer::new(Vec::from_slice(Global, b"12345678").unwrap());
        GRANTED.set(granted);
        let answer = call(&mut json);
        if GRANTED.replace(usize::MAX) != usize::MAX {
            assert!(answer.is_ok() && granted > 0);
            return;
        }
        assert!(answer.is_err());
        assert_eq!(json.into_inner().as_slice(), b"12345678");
    }
}

#[test]
fn json_leaves_no_part_of_a_token() {
    on_writer(|it| it.begin_object());
    on_writer(|it| it.key("a"));
    on_writer(|it| it.u64(7));
    on_writer(|it| it.string("\u{1}\u{2}\u{3}\u{4}"));
}

#[test]
fn readers_keep_what_they_read() {
    let made = || Vec::from_slice(Global, b"12345678").unwrap();
    let done = refuse_each(
        made,
        |v| b"90".as_slice().read_to_end(v),
        |v| assert_eq!(v.as_slice(), b"12345678"),
    );
    assert_eq!(done, 1);
}
