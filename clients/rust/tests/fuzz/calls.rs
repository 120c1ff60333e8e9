//! The calls of tests/random_calls.rs, which bytes of libFuzzer choose. `build` compiles it.
#![no_main]

use std::cell::RefCell;
use std::{panic, process, slice};

#[allow(dead_code)]
#[path = "../random_calls.rs"]
mod random_calls;

thread_local! {
    /// What the last panic said.
    static SAID: RefCell<String> = const { RefCell::new(String::new()) };
}

#[no_mangle]
pub extern "C" fn LLVMFuzzerInitialize(_: *mut i32, _: *mut *mut *mut u8) -> i32 {
    // The calls catch most panics, of which nothing is told.
    panic::set_hook(Box::new(|panic| {
        SAID.replace(panic.to_string());
    }));
    0
}

/// # Safety
///
/// There are so many bytes.
#[no_mangle]
pub unsafe extern "C" fn LLVMFuzzerTestOneInput(bytes: *const u8, len: usize) -> i32 {
    let bytes = if len == 0 {
        &[]
    } else {
        // SAFETY: owed by the caller.
        unsafe { slice::from_raw_parts(bytes, len) }
    };
    if panic::catch_unwind(|| random_calls::make_chosen_calls(bytes)).is_err() {
        eprintln!("{}", SAID.take());
        process::abort();
    }
    0
}
