//! Runs the programs `logos_show` and `logos` as WebAssembly. Called by the worker of the
//! playground's page.
//!
//! A slot is a list of bytes. The page fills [`ARGUMENTS`], [`SOURCE`] and [`INPUT`], calls
//! [`run`], and reads [`OUTPUT`] and [`MESSAGES`]. The programs are those that Cargo builds. Their
//! only files are the source and the input, and their output is written to [`OUTPUT`] and
//! [`MESSAGES`].

#![deny(unsafe_code)]
#![warn(missing_docs)]

mod enums;
mod files;

use files::{NoSystem, Texts};
use logos_build::logos_commands;
use logos_build::programs::show;
use rattle_std::alloc::{AllocError, Global, set_budget};
use rattle_std::string::String as Argument;
use rattle_std::vec::Vec as List;
use std::sync::{Mutex, MutexGuard, PoisonError};

/// The slot of the program's name and of each argument of the program, each on its own line.
pub const ARGUMENTS: usize = 0;
/// The slot of the bytes of the file `lexer.rs`.
pub const SOURCE: usize = 1;
/// The slot of the bytes of the file `text`.
pub const INPUT: usize = 2;
/// The slot of the standard output.
pub const OUTPUT: usize = 3;
/// The slot of the standard error.
pub const MESSAGES: usize = 4;

/// The most memory that a program may use, in bytes.
const BUDGET: usize = 256 << 20;

/// The exit status if the arguments are not UTF-8 or do not name a known program.
const MISUSE: u8 = 2;

/// The exit status if memory runs out.
const FAILED: u8 = 3;

/// The bytes of each slot.
static SLOTS: Mutex<[Vec<u8>; 5]> = Mutex::new([const { Vec::new() }; 5]);

/// Locks the slots and returns them. A program that panics ends the instance, so no other program
/// finds the slots locked.
fn slots() -> MutexGuard<'static, [Vec<u8>; 5]> {
    SLOTS.lock().unwrap_or_else(PoisonError::into_inner)
}

/// Sets a slot to `length` zero bytes, and returns the address of the first byte. The page writes
/// the slot's bytes at this address.
///
/// Returns 0, and changes nothing, if there is no such slot.
#[allow(unsafe_code)]
#[unsafe(no_mangle)]
pub extern "C" fn resize(slot: usize, length: usize) -> usize {
    slots().get_mut(slot).map_or(0, |bytes| {
        bytes.clear();
        bytes.resize(length, 0);
        bytes.as_ptr().addr()
    })
}

/// Returns the address of the first byte of a slot, or 0 if there is no such slot.
#[allow(unsafe_code)]
#[unsafe(no_mangle)]
pub extern "C" fn address(slot: usize) -> usize {
    slots().get(slot).map_or(0, |bytes| bytes.as_ptr().addr())
}

/// Returns the length of a slot in bytes, or 0 if there is no such slot.
#[allow(unsafe_code)]
#[unsafe(no_mangle)]
pub extern "C" fn length(slot: usize) -> usize {
    slots().get(slot).map_or(0, Vec::len)
}

/// Runs the program that the slot [`ARGUMENTS`] names, and returns its exit status. Sets the slots
/// [`OUTPUT`] and [`MESSAGES`].
///
/// The program is `logos_show`, `logos`, or `enums`, which prints the enums of the source.
#[allow(unsafe_code)]
#[unsafe(no_mangle)]
pub extern "C" fn run() -> u32 {
    set_budget(Some(BUDGET));
    let mut slots = slots();
    let (mut out, mut messages) = (List::new(Global), List::new(Global));
    let status = answer(&slots, &mut out, &mut messages);
    slots[OUTPUT] = out.to_vec();
    slots[MESSAGES] = messages.to_vec();
    u32::from(status)
}

/// Runs the program that the slot [`ARGUMENTS`] names, and returns its exit status. Appends the
/// program's output to `out`, and its messages to `messages`.
fn answer(slots: &[Vec<u8>; 5], out: &mut List<u8>, messages: &mut List<u8>) -> u8 {
    let Ok(text) = str::from_utf8(&slots[ARGUMENTS]) else {
        return MISUSE;
    };
    let (program, rest) = text.split_once('\n').unwrap_or((text, ""));
    let Ok(words) = words_of(rest) else {
        return FAILED;
    };
    let mut files = Texts {
        source: &slots[SOURCE],
        input: &slots[INPUT],
    };
    match program {
        "logos_show" => show(&words, &mut files, &NoSystem, messages, out),
        "logos" => logos_commands::run(Global, &words, &mut files, out, messages),
        "enums" => match enums::print(files.source, out) {
            Ok(()) => 0,
            Err(AllocError) => FAILED,
        },
        _ => MISUSE,
    }
}

/// Returns the lines of `text` as arguments, or `AllocError` if memory runs out.
fn words_of(text: &str) -> Result<List<Argument>, AllocError> {
    let mut words = List::new(Global);
    for line in text.lines() {
        words.push(Argument::from_str(Global, line)?)?;
    }
    Ok(words)
}
