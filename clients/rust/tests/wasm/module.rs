//! The example `intern` in wasm without std: a host writes a backend's name and an input where `room` says, and reads what is answered.

#![no_std]

extern crate alloc;

#[path = "../../examples/wasm/src/pages.rs"]
mod pages;
#[path = "../../examples/intern/replies.rs"]
mod replies;

use alloc::boxed::Box;
use alloc::string::String;
use alloc::vec;

/// What the host reads: the status, and what is printed.
pub struct Answer {
    status: u32,
    printed: String,
}

/// Returns where the host writes so many bytes.
#[no_mangle]
pub extern "C" fn room(len: usize) -> *mut u8 {
    Box::leak(vec![0; len].into_boxed_slice()).as_mut_ptr()
}

/// Answers an input, which is not UTF-8 or is behind a backend's name and a newline.
///
/// # Safety
///
/// It is written where `room` said, for so many bytes.
#[no_mangle]
pub unsafe extern "C" fn answer(bytes: *const u8, len: usize) -> Box<Answer> {
    // SAFETY: owed by the host.
    let bytes = unsafe { core::slice::from_raw_parts(bytes, len) };
    let (status, printed) = match core::str::from_utf8(bytes) {
        Err(_) => (1, "cannot read input\n".into()),
        Ok(text) => {
            let (word, input) = text.split_once('\n').expect("a newline behind the name");
            match replies::find(word).expect("a backend's name")(input) {
                Ok(printed) => (0, printed),
                Err(said) => (2, said + "\n"),
            }
        }
    };
    Box::new(Answer { status, printed })
}

#[no_mangle]
pub extern "C" fn status(answer: &Answer) -> u32 {
    answer.status
}

#[no_mangle]
pub extern "C" fn printed(answer: &Answer) -> *const u8 {
    answer.printed.as_ptr()
}

#[no_mangle]
pub extern "C" fn printed_len(answer: &Answer) -> usize {
    answer.printed.len()
}

/// Traps, which throws an error in the host.
#[panic_handler]
fn panic(_: &core::panic::PanicInfo) -> ! {
    core::arch::wasm32::unreachable()
}
