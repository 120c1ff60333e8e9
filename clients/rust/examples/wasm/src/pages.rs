//! The allocator, because without std there is none: blocks whose sizes are powers of two, of the pages that wasm grants. A freed block
//! is in a list of those of its size.

#![allow(unsafe_code)]

use core::alloc::{GlobalAlloc, Layout};
use core::arch::wasm32::memory_grow;
use core::cell::Cell;
use core::ptr::null_mut;

const PAGE: usize = 1 << 16;

struct Pages {
    /// By the logarithm of their size the first free block, which begins with the address of the next one.
    free: [Cell<*mut u8>; 32],
    /// Where the rest of the pages begins and ends from which no block was made.
    rest: Cell<(usize, usize)>,
}

#[global_allocator]
static PAGES: Pages = Pages {
    free: [const { Cell::new(null_mut()) }; 32],
    rest: Cell::new((0, 0)),
};

// SAFETY: a module for wasm32 without atomics has one thread.
unsafe impl Sync for Pages {}

/// Returns the size of the block for a layout, unless it is too large.
fn block_size(layout: Layout) -> Option<usize> {
    let least = layout.size().max(layout.align());
    least.max(align_of::<usize>()).checked_next_power_of_two()
}

impl Pages {
    /// Returns a new block of a size, or null if the host grants no pages.
    fn cut(&self, size: usize) -> *mut u8 {
        let (start, end) = self.rest.get();
        // A block's address is a multiple of its size, but of no more than a page.
        let start = start.next_multiple_of(size.min(PAGE));
        if start < end && size <= end - start {
            self.rest.set((start + size, end));
            return start as *mut u8;
        }
        let pages = size.div_ceil(PAGE);
        let first = memory_grow::<0>(pages);
        if first == usize::MAX {
            return null_mut();
        }
        let block = first * PAGE;
        if size < PAGE {
            // Behind the last page of all there is no address: nothing is cut of what is left of that.
            self.rest.set((block + size, block.wrapping_add(PAGE)));
        }
        block as *mut u8
    }
}

// SAFETY: blocks are parts of pages that nobody else has, do not overlap, and are as large as asked for. Their addresses are aligned,
// as no alignment here is more than a page.
unsafe impl GlobalAlloc for Pages {
    unsafe fn alloc(&self, layout: Layout) -> *mut u8 {
        let Some(size) = block_size(layout) else {
            return null_mut();
        };
        let list = &self.free[size.ilog2() as usize];
        let block = list.get();
        if block.is_null() {
            return self.cut(size);
        }
        // SAFETY: a free block has the address of the next one.
        list.set(unsafe { block.cast::<*mut u8>().read() });
        block
    }

    unsafe fn dealloc(&self, block: *mut u8, layout: Layout) {
        if let Some(size) = block_size(layout) {
            let list = &self.free[size.ilog2() as usize];
            // SAFETY: the block has room for an address, is aligned for one, and nobody uses it any more.
            unsafe { block.cast::<*mut u8>().write(list.get()) };
            list.set(block);
        }
    }
}
