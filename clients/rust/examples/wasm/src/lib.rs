//! An interner for programs in JavaScript: a module for wasm32 without std, under keys that the host draws.
//!
//! The host gets the address of an interner, and passes it to each other call. It writes the UTF-8 of a text where `room` says.

#![no_std]

extern crate alloc;

mod pages;

use alloc::boxed::Box;
use alloc::vec::Vec;
use string_interner::backend::StringBackend;
use string_interner::hasher::KeyedHashBuilder;
use string_interner::{DefaultSymbol, StringInterner, Symbol};

/// An interner, a text that the host writes, and the numbers of the symbols of its words.
pub struct Words {
    interner: StringInterner<StringBackend, KeyedHashBuilder>,
    text: Vec<u8>,
    numbers: Vec<u32>,
}

/// Returns an interner under these keys. It lives as long as the module.
#[no_mangle]
pub extern "C" fn make(key0: u64, key1: u64) -> Box<Words> {
    Box::new(Words {
        interner: StringInterner::with_hasher(KeyedHashBuilder::new(key0, key1)),
        text: Vec::new(),
        numbers: Vec::new(),
    })
}

/// Returns where the host writes a text of so many bytes, or null if there is no memory for it.
#[no_mangle]
pub extern "C" fn room(words: &mut Words, len: usize) -> *mut u8 {
    words.text.clear();
    match words.text.try_reserve(len) {
        Ok(()) => {
            words.text.resize(len, 0);
            words.text.as_mut_ptr()
        }
        Err(_) => core::ptr::null_mut(),
    }
}

/// Interns the words of the text that the host wrote, of so many bytes. Returns how many they are, or -1 if they are not UTF-8, no
/// symbol is left or an allocation failed; the words before are interned then.
#[no_mangle]
pub extern "C" fn intern(words: &mut Words, len: usize) -> i32 {
    words.numbers.clear();
    let Ok(text) = core::str::from_utf8(&words.text[..len]) else {
        return -1;
    };
    for word in text.split_whitespace() {
        let symbol = words.interner.try_get_or_intern(word);
        match (symbol, words.numbers.try_reserve(1)) {
            (Ok(symbol), Ok(())) => words.numbers.push(symbol.to_usize() as u32),
            _ => return -1,
        }
    }
    words.numbers.len() as i32
}

/// Returns where the numbers of the words are that `intern` counted last.
#[no_mangle]
pub extern "C" fn numbers(words: &Words) -> *const u32 {
    words.numbers.as_ptr()
}

/// Returns how many distinct words there are.
#[no_mangle]
pub extern "C" fn count(words: &Words) -> usize {
    words.interner.len()
}

/// Returns where the word with a number begins, and in the upper 32 bits how many bytes it has, or 0 if there is none.
#[no_mangle]
pub extern "C" fn resolve(words: &Words, number: u32) -> u64 {
    let symbol = DefaultSymbol::try_from_usize(number as usize);
    let word = symbol.and_then(|symbol| words.interner.resolve(symbol));
    word.map_or(0, |word| (word.len() as u64) << 32 | word.as_ptr() as u64)
}

/// Traps, which throws an error in the host.
#[panic_handler]
fn panic(_: &core::panic::PanicInfo) -> ! {
    core::arch::wasm32::unreachable()
}
