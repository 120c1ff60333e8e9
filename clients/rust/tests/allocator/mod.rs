//! An allocator that counts what a thread asks for and holds, and refuses what the thread names.

// Each test uses a part of it.
#![allow(dead_code)]
#![allow(unsafe_code)]

use std::alloc::{GlobalAlloc, Layout, System};
use std::cell::Cell;
use std::ptr;
use std::sync::atomic::{AtomicBool, AtomicUsize, Ordering};
use std::thread;
use std::time::Duration;

std::thread_local! {
    /// How many requests there were.
    pub static REQUESTS: Cell<usize> = const { Cell::new(0) };
    /// How many bytes were granted and not given back since.
    pub static HELD: Cell<isize> = const { Cell::new(0) };
    /// The request that is refused, counted from 1; none if this is 0.
    pub static REFUSED: Cell<usize> = const { Cell::new(0) };
    /// Whether all are refused.
    pub static REFUSES: Cell<bool> = const { Cell::new(false) };
    /// Blocks of this size are granted to one thread at a time: such a request takes 50 ms, and is refused if another is under way.
    pub static ALONE: Cell<usize> = const { Cell::new(0) };
}

/// How many such requests there were.
pub static REQUESTS_ALONE: AtomicUsize = AtomicUsize::new(0);

struct Watched;

#[global_allocator]
static ALLOCATOR: Watched = Watched;

/// Counts a request, and reports whether it is refused.
fn is_refused() -> bool {
    REQUESTS.set(REQUESTS.get() + 1);
    let left = REFUSED.get();
    REFUSED.set(left.saturating_sub(1));
    left == 1 || REFUSES.get()
}

/// Waits until a block is granted to this thread alone. Reports whether another one waits for such a block.
fn is_refused_alone() -> bool {
    static WAITS: AtomicBool = AtomicBool::new(false);
    REQUESTS_ALONE.fetch_add(1, Ordering::SeqCst);
    if WAITS.swap(true, Ordering::SeqCst) {
        return true;
    }
    thread::sleep(Duration::from_millis(50));
    WAITS.store(false, Ordering::SeqCst);
    false
}

// SAFETY: it hands all on to the system's allocator, or refuses.
unsafe impl GlobalAlloc for Watched {
    unsafe fn alloc(&self, layout: Layout) -> *mut u8 {
        if is_refused() || layout.size() == ALONE.get() && is_refused_alone() {
            return ptr::null_mut();
        }
        HELD.set(HELD.get() + layout.size() as isize);
        // SAFETY: owed by the caller.
        unsafe { System.alloc(layout) }
    }

    unsafe fn dealloc(&self, block: *mut u8, layout: Layout) {
        HELD.set(HELD.get() - layout.size() as isize);
        // SAFETY: owed by the caller.
        unsafe { System.dealloc(block, layout) }
    }
}

/// Makes a call to which all memory is refused.
pub fn refused<T>(call: impl FnOnce() -> T) -> T {
    REFUSES.set(true);
    let returned = call();
    REFUSES.set(false);
    returned
}
