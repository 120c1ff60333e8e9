//! How the lists of a backend, and lists of numbers, grow: they double until they take 1 MiB, and then grow by a quarter, which
//! leaves at most a fifth of a list spare. The last doubling, to nearly 2 MiB, can leave half of it spare.
//!
//! What grows a list is never inlined, so that it stays out of the hot path of its callers.

//~ ghost use Rattle.std.specs.Prelude.{◌≡◌, ◌+◌, ◌≤◌, IsOk, vec_len, vec_capacity, string_bytes, string_len, string_capacity};
//~ ghost use Rattle.string_interner.specs.Growth.{MakesRoom};

use crate::rt::prelude::*; use crate::rt::alloc::AllocError;
use crate::rt::mem::size_of_val;

/// From so many bytes on a list grows by a quarter. A smaller one doubles: its spare capacity is small, and each growth
/// copies it. The system usually moves a large block without a copy.
const LARGE: usize = 1 << 20;

/// Makes room for `additional` more items. Allocates nothing if there is room.
///
/// Returns `Err` only if an allocation fails or a size does not fit a `usize`.
#[inline(always)]
pub fn reserve_items<T>(list: &mut Vec<T>, additional: usize) -> Result<(), AllocError>
    //~ ensures items { list.new.items ≡ list.old.items }
    //~ ensures room { MakesRoom (vec_len list.new) additional result
    //~     (vec_capacity list.old) (vec_capacity list.new) }
    //~ ensures succeeds { vec_len list.old + additional ≤ vec_capacity list.old → IsOk result }
{
    if additional <= list.capacity() - list.len() {
        return Ok(());
    }
    grow_items(list, additional)
}

/// Makes room for `additional` more items in a list that has not enough.
///
/// Returns `Err` only if an allocation fails or a size does not fit a `usize`.
#[cold] #[inline(never)]
fn grow_items<T>(list: &mut Vec<T>, additional: usize) -> Result<(), AllocError>
    //~ ensures items { list.new.items ≡ list.old.items }
    //~ ensures room { MakesRoom (vec_len list.new) additional result
    //~     (vec_capacity list.old) (vec_capacity list.new) }
{
    if size_of_val(list.as_slice()) < LARGE {
        list.reserve(additional)
    } else {
        list.reserve_exact(additional.max(list.len() / 4))
    }
}

/// Makes room for `additional` more bytes in a string that has not enough.
///
/// Returns `Err` only if an allocation fails or a size does not fit a `usize`.
#[cold] #[inline(never)]
pub fn grow_bytes(text: &mut String, additional: usize) -> Result<(), AllocError>
    //~ ensures bytes { string_bytes text.new ≡ string_bytes text.old }
    //~ ensures room { MakesRoom (string_len text.new) additional result
    //~     (string_capacity text.old) (string_capacity text.new) }
{
    if text.len() < LARGE {
        text.reserve(additional)
    } else {
        text.reserve_exact(additional.max(text.len() / 4))
    }
}
