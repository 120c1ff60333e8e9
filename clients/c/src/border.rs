//! What C passes, and what it asks of the build.

use core::ffi::CStr;
use core::slice::{from_raw_parts, from_raw_parts_mut};

/// Returns how the library was built, which no proved function knows.
#[no_mangle]
pub extern "C" fn interner_build() -> *const core::ffi::c_char {
    const BUILD: &CStr = c"proved source, compiled by rustc";
    BUILD.as_ptr()
}

/// Returns what C passes as an address and a length. The address of no element may be null.
///
/// # Safety
///
/// So many elements are there, and nothing changes them while the result is used.
#[inline(always)]
pub unsafe fn slice<'a, T>(address: *const T, len: usize) -> &'a [T] {
    if len == 0 {
        return &[];
    }
    // SAFETY: the caller promises the same.
    unsafe { from_raw_parts(address, len) }
}

/// Returns what C passes as an address and a length, to be written to. The address of no element may be null.
///
/// # Safety
///
/// So many elements are there, and nothing else reads or changes them while the result is used.
#[inline(always)]
pub unsafe fn slice_mut<'a, T>(address: *mut T, len: usize) -> &'a mut [T] {
    if len == 0 {
        return &mut [];
    }
    // SAFETY: the caller promises the same.
    unsafe { from_raw_parts_mut(address, len) }
}
