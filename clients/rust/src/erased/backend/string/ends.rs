//! Where each text begins and ends, by the list of their ends, in bytes from the start of the first.

//~ ghost use Rattle.std.specs.Prelude.{◌≡◌, ◌<◌, ◌≤◌, length, IfSome};
//~ ghost use Rattle.string_interner.specs.StringBackend.{span_of, start_at};

use crate::rt::prelude::*; use crate::erased::number_list::NumberList;

/// Returns the start of text `index`: the end of the text before it, or 0. With the number of texts, returns where the next
/// one starts.
#[inline]
pub fn start_of(ends: &NumberList, index: usize) -> usize
    //~ requires { index ≤ length ends.now.items }
    //~ ensures { result ≡ start_at ends.now.items index }
{
    if index == 0 { 0 } else { ends.at(index - 1) }
}

/// Returns the start and the end of text `index`.
#[inline(always)]
pub fn span(ends: &NumberList, index: usize) -> (usize, usize)
    //~ requires { index < length ends.now.items }
    //~ ensures { result ≡ span_of ends.now.items index }
{
    let (narrow, wide) = ends.as_slices();
    // The same for each text, so that a loop over all of them tests it once.
    if wide.is_empty() {
        narrow_span(narrow, index)
    } else {
        wide_span(ends, index)
    }
}

/// Returns the start and the end of text `index`, if there is one and its end takes four bytes.
#[inline(always)]
pub fn find_narrow_span(ends: &NumberList, index: usize) -> Option<(usize, usize)>
    //~ ensures within { IfSome result (λ _. index < length ends.now.items) }
    //~ ensures value { IfSome result (λ found. found ≡ span_of ends.now.items index) }
{
    let (narrow, _) = ends.as_slices();
    // The end before one of four bytes has four, too, so there is nothing else to test.
    if index < narrow.len() {
        Some(narrow_span(narrow, index))
    } else {
        None
    }
}

/// Returns the start and the end of text `index`, by a list of ends that has both.
#[inline(always)]
fn narrow_span(ends: &[u32], index: usize) -> (usize, usize)
    //~ requires { index < length ends.now }
    //~ ensures { result ≡ span_of ends.now index }
{
    let start = if index == 0 { 0 } else { ends[index - 1] };
    (start as usize, ends[index] as usize)
}

/// Returns what `span` does, wherever the two ends lie.
#[cold]
fn wide_span(ends: &NumberList, index: usize) -> (usize, usize)
    //~ requires { index < length ends.now.items }
    //~ ensures { result ≡ span_of ends.now.items index }
{
    (start_of(ends, index), ends.at(index))
}
