//! Each contract of Rattle's std for which `rt` stands, and refused memory.

#[path = "../../tests/allocator/mod.rs"]
mod allocator;

use super::alloc::{AllocError, Global};
use super::hash::{keyed_hasher, FoldHasher, Hasher};
use super::numbers::{Chunks, Product};
use super::simd::{equal_by_words, u8x16};
use super::string::String;
use super::vec::Vec;
use super::words::{size_of_words, Words, LINE};
use allocator::{refused, HELD};
use std::hash::DefaultHasher;
use std::panic::{catch_unwind, AssertUnwindSafe};

/// A list of these numbers, and no room for more.
fn list_of(numbers: &[u32]) -> Vec<u32> {
    Vec::from_slice(Global, numbers).unwrap()
}

#[test]
fn a_list_has_what_was_appended() {
    let mut list = Vec::with_capacity(Global, 2).unwrap();
    assert!(list.is_empty() && list.capacity() >= 2);
    refused(|| {
        list.push_reserved(1);
        assert_eq!(list.push(2), Ok(()));
    });
    list.extend_from_slice(&[3, 4]).unwrap();
    assert_eq!(list.as_slice(), [1, 2, 3, 4]);
    list.resize(6, 9).unwrap();
    assert_eq!(*list, [1, 2, 3, 4, 9, 9]);
    list.resize(1, 9).unwrap();
    assert!(list.capacity() >= 6 && *list == [1]);
    list.truncate(3);
    assert_eq!(*list, [1]);
    list.truncate(0);
    assert!(list.is_empty() && list.capacity() >= 6);
    assert_eq!(
        Vec::from_elem(Global, 7_u8, 3).unwrap().as_slice(),
        [7, 7, 7]
    );
}

/// What a call says as it panics.
fn message(call: impl FnOnce()) -> std::string::String {
    let said = catch_unwind(AssertUnwindSafe(call)).unwrap_err();
    *said.downcast().unwrap()
}

#[test]
fn a_place_that_is_not_there_panics_as_in_a_slice() {
    let (mut list, mut slice) = (list_of(&[1, 2]), [1, 3]);
    list[1] = 3;
    list[..1][0] = 1;
    assert_eq!((list[1], &list[1..], &list[..]), (3, &[3][..], &slice[..]));
    let end = list.len();
    assert_eq!(message(|| _ = list[end]), message(|| _ = slice[end]));
    assert_eq!(message(|| list[end] = 0), message(|| slice[end] = 0));
    let from = end + 1;
    let ours = message(|| _ = &list[from..]);
    assert_eq!(ours, message(|| _ = &slice[from..]));
    assert_eq!(list.as_slice(), slice);
}

#[test]
fn a_list_to_which_memory_is_refused_stays() {
    assert!(refused(|| Vec::<u32>::with_capacity(Global, 1)).is_err());
    assert!(refused(|| Vec::from_slice(Global, &[1])).is_err());
    assert!(refused(|| Vec::from_elem(Global, 1, 1)).is_err());
    assert!(Vec::<u32>::with_capacity(Global, usize::MAX / 2).is_err());
    let mut list = list_of(&[1, 2]);
    refused(|| {
        assert_eq!(list.push(3), Err(AllocError));
        assert_eq!(list.reserve(1), Err(AllocError));
        assert_eq!(list.reserve_exact(1), Err(AllocError));
        assert_eq!(list.extend_from_slice(&[3]), Err(AllocError));
        assert_eq!(list.resize(3, 0), Err(AllocError));
    });
    assert_eq!(list.reserve(usize::MAX), Err(AllocError));
    assert_eq!((list.as_slice(), list.capacity()), (&[1, 2][..], 2));
}

#[test]
fn room_doubles_where_it_is_not_exact() {
    let mut list = list_of(&[0; 100]);
    list.reserve(1).unwrap();
    assert!(list.capacity() >= 200);
    let mut list = list_of(&[0; 100]);
    list.reserve_exact(1).unwrap();
    assert_eq!(list.capacity(), 101);
    let mut text = String::from_str(Global, &"x".repeat(100)).unwrap();
    text.reserve(1).unwrap();
    assert!(text.capacity() >= 200);
}

#[test]
fn shrinking_keeps_the_larger_block_if_memory_is_refused() {
    let mut list = list_of(&[1, 2]);
    list.reserve_exact(8).unwrap();
    refused(|| list.shrink_to_fit());
    assert_eq!((list.as_slice(), list.capacity()), (&[1, 2][..], 10));
    list.shrink_to_fit();
    assert_eq!((list.as_slice(), list.capacity()), (&[1, 2][..], 2));
    list.truncate(0);
    refused(|| list.shrink_to_fit());
    assert_eq!(list.capacity(), 0);
    let mut text = String::with_capacity(Global, 9).unwrap();
    text.push_str("äb").unwrap();
    refused(|| text.shrink_to_fit());
    assert_eq!((text.as_str(), text.capacity()), ("äb", 9));
    text.shrink_to_fit();
    assert_eq!((text.as_str(), text.capacity()), ("äb", 3));
}

/// A type that may be copied has a `Clone` of its own. None of a list's calls runs it.
#[test]
fn items_are_copied_by_their_bits() {
    #[derive(Copy, Debug, PartialEq)]
    struct Item(u8);
    #[allow(clippy::non_canonical_clone_impl)]
    impl Clone for Item {
        fn clone(&self) -> Self {
            panic!("cloned")
        }
    }
    let mut list = Vec::from_elem(Global, Item(1), 2).unwrap();
    list.resize(3, Item(2)).unwrap();
    list.extend_from_slice(&[Item(3)]).unwrap();
    let copy = Vec::from_slice(Global, &list).unwrap();
    assert_eq!(copy.as_slice(), [Item(1), Item(1), Item(2), Item(3)]);
}

#[test]
fn a_text_has_what_was_appended_and_stays_where_it_is() {
    let mut text = String::with_capacity(Global, 8).unwrap();
    text.push_str("aß").unwrap();
    let place = text.as_ptr();
    refused(|| assert_eq!(text.push_str("語"), Ok(())));
    assert!(text.as_ptr() == place && &text[1..3] == "ß" && *text == *"aß語");
    refused(|| assert_eq!(text.push_str("much more"), Err(AllocError)));
    refused(|| assert_eq!(text.reserve_exact(9), Err(AllocError)));
    let copy = text.clone().unwrap();
    assert!(copy == text && copy.capacity() == 6);
    assert!(
        refused(|| text.clone()).is_err() && refused(|| String::from_str(Global, "a")).is_err()
    );
    text.truncate(3);
    assert!(text.as_str() == "aß" && text.capacity() >= 8);
    assert!(catch_unwind(|| copy[2..3].len()).is_err());
}

/// Short texts are appended by words, and others by a call.
#[test]
fn texts_of_each_length_are_appended() {
    let source = "the quick brown fox jumps over the lazy dog";
    for len in 0..=source.len() {
        for (before, room) in [("", len), ("", 0), ("earth", len), ("earth", 64)] {
            let mut text = String::with_capacity(Global, before.len() + room).unwrap();
            text.push_str(before).unwrap();
            text.push_str(&source[..len]).unwrap();
            assert_eq!(text.as_str(), [before, &source[..len]].concat());
        }
    }
}

/// Sixteen random bytes, of which some are alike.
/// The words of a list, read one by one.
fn words_of(words: &Words) -> std::vec::Vec<u64> {
    (0..words.len()).map(|at| words.get(at)).collect()
}

#[test]
fn words_have_what_was_written() {
    let mut words = Words::zeros(Global, 8).unwrap();
    assert_eq!(words_of(&words), [0; 8]);
    assert_eq!(words.as_slice().as_ptr().addr() % LINE, 0);
    words.set(0, u64::MAX);
    words.set(7, 3);
    assert_eq!(words_of(&words), [u64::MAX, 0, 0, 0, 0, 0, 0, 3]);
    let copy = words.try_copy().unwrap();
    words.clear();
    assert_eq!(words_of(&words), [0; 8]);
    assert_eq!(words_of(&copy), [u64::MAX, 0, 0, 0, 0, 0, 0, 3]);
    assert!(catch_unwind(AssertUnwindSafe(|| words.get(8))).is_err());
    assert!(catch_unwind(AssertUnwindSafe(|| words.set(8, 1))).is_err());
}

/// The words stay until the last list of them is dropped.
#[test]
fn words_are_shared() {
    let before = HELD.get();
    let mut words = Words::zeros(Global, 16).unwrap();
    assert_eq!(HELD.get() - before, size_of_words(16) as isize);
    let shared = words.share();
    words.set(5, 9);
    assert_eq!(shared.get(5), 9);
    drop(words);
    assert_eq!((shared.len(), shared.get(5)), (16, 9));
    drop((shared.share(), shared));
    assert_eq!(HELD.get(), before);
}

#[test]
fn words_to_which_memory_is_refused() {
    let words = Words::zeros(Global, 8).unwrap();
    refused(|| {
        assert!(Words::zeros(Global, 8).is_err() && words.try_copy().is_err());
        let none = Words::new(Global);
        assert_eq!((none.share().len(), none.as_slice().len()), (0, 0));
        assert_eq!(
            Words::zeros(Global, 0).unwrap().try_copy().unwrap().len(),
            0
        );
    });
    assert!(Words::zeros(Global, usize::MAX / 8).is_err());
    assert_eq!(
        (size_of_words(0), size_of_words(usize::MAX)),
        (0, usize::MAX)
    );
}

fn bytes(state: &mut u64) -> [u8; 16] {
    [(); 16].map(|()| {
        *state = state
            .wrapping_mul(6_364_136_223_846_793_005)
            .wrapping_add(1);
        [0, 1, 0x7f, 0x80, 0x81, 0xff][(*state >> 40) as usize % 6]
    })
}

#[test]
fn sixteen_bytes_are_compared_alike_on_each_path() {
    let mut state = 1;
    for _ in 0..100_000 {
        let (one, other) = (bytes(&mut state), bytes(&mut state));
        let wanted = (0..16).fold(0, |mask, at| mask | u16::from(one[at] == other[at]) << at);
        assert_eq!(equal_by_words(&one, &other), wanted);
        let by_target = u8x16::from_slice(&one).simd_eq(u8x16::from_slice(&other));
        assert_eq!(by_target.to_bitmask(), u64::from(wanted));
        let less = (0..16).fold(0, |mask, at| mask | u64::from(one[at] < other[at]) << at);
        let by_target = u8x16::from_slice(&one).simd_lt(u8x16::from_slice(&other));
        assert_eq!(by_target.to_bitmask(), less);
        let equal = u8x16::from_slice(&one).simd_eq(u8x16::from_slice(&other));
        assert_eq!((by_target | equal).to_bitmask(), less | u64::from(wanted));
        let beside_one = u8x16::splat(one[3]).simd_eq(u8x16::from_slice(&other));
        assert_eq!(beside_one.to_bitmask() >> 5 & 1 == 1, one[3] == other[5]);
    }
    assert!(catch_unwind(|| u8x16::from_slice(&[0; 15])).is_err());
}

/// Texts of all lengths up to some, whose bytes differ.
fn texts() -> impl Iterator<Item = std::vec::Vec<u8>> {
    (0..70_u8).map(|len| (0..len).map(|at| at.wrapping_mul(37) ^ len).collect())
}

/// Those of Rust's own SipHash-1-3 have the keys 0.
#[test]
fn sip_codes_are_those_of_rust() {
    let (mut ours, mut rusts) = (keyed_hasher(0, 0), DefaultHasher::new());
    for text in texts() {
        ours.write(&text);
        rusts.write(&text);
        assert_eq!(ours.finish(), rusts.finish());
    }
    assert_ne!(keyed_hasher(0, 1).finish(), keyed_hasher(1, 0).finish());
}

#[test]
fn fold_codes_depend_on_each_byte() {
    let code = |text: &[u8]| {
        let mut hasher = FoldHasher::default();
        hasher.write(text);
        hasher.finish()
    };
    for text in texts() {
        for at in (0..text.len()).filter(|at| text.len() > 3 || *at == 0) {
            let mut other = text.clone();
            other[at] ^= 1;
            assert_ne!(code(&text), code(&other));
        }
    }
    assert_ne!(code(b""), code(b"\0"));
}

#[test]
fn calls_of_younger_compilers() {
    for (a, b, carry) in [(3, 5, 7), (u64::MAX, u64::MAX, u64::MAX), (1 << 63, 2, 0)] {
        let wide = u128::from(a) * u128::from(b) + u128::from(carry);
        let words = Product::carrying_mul(a, b, carry);
        assert_eq!(words, (wide as u64, (wide >> 64) as u64));
    }
    let items = [1, 2, 3, 4, 5, 6, 7];
    let (pieces, rest) = Chunks::as_chunks::<3>(&items[..]);
    assert!(pieces.iter().eq([&[1, 2, 3], &[4, 5, 6]]) && rest == [7]);
}
