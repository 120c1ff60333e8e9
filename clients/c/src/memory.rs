//! What Rust's std does for other programs: memory, by malloc, realloc and free, and the end of the process at a panic.

use core::alloc::{GlobalAlloc, Layout};
use core::ffi::c_void;
use core::panic::PanicInfo;
use core::ptr::null_mut;

extern "C" {
    fn malloc(size: usize) -> *mut c_void;
    fn realloc(block: *mut c_void, size: usize) -> *mut c_void;
    fn free(block: *mut c_void);
    fn abort() -> !;
}

/// The allocator of C, which aligns each block for every type of C.
struct Heap;

/// What every block of malloc is aligned to. No type of the library asks for more.
const ALIGNMENT: usize = 16;

// SAFETY: blocks are those of malloc and realloc, which are as long as was asked for, aligned as C requires, and null where memory is
// refused. A larger alignment is refused.
unsafe impl GlobalAlloc for Heap {
    /// Not inlined, or else the compiler makes one call of calloc of a call of malloc and what fills the block with zeros. Programs
    /// may link a malloc, realloc and free of their own, and no calloc.
    #[inline(never)]
    unsafe fn alloc(&self, layout: Layout) -> *mut u8 {
        if layout.align() > ALIGNMENT {
            return null_mut();
        }
        // SAFETY: malloc takes each size.
        unsafe { malloc(layout.size()).cast() }
    }

    #[inline]
    unsafe fn realloc(&self, block: *mut u8, _: Layout, size: usize) -> *mut u8 {
        // SAFETY: the caller promises that `alloc` returned the block, which had no larger alignment then.
        unsafe { realloc(block.cast(), size).cast() }
    }

    #[inline]
    unsafe fn dealloc(&self, block: *mut u8, _: Layout) {
        // SAFETY: the caller promises that `alloc` or `realloc` returned the block.
        unsafe { free(block.cast()) }
    }
}

#[global_allocator]
static HEAP: Heap = Heap;

/// Ends the process. A panic does not reach the caller, and none is reachable: the proof says so of the source.
#[panic_handler]
fn panic(_: &PanicInfo) -> ! {
    // SAFETY: abort may be called at any time.
    unsafe { abort() }
}
