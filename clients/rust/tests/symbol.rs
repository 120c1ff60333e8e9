//! The numbers of each symbol type.

use std::collections::HashSet;
use std::fmt::Debug;
use std::hash::Hash;
use std::mem::size_of;
use string_interner::symbol::{SymbolU16, SymbolU32, SymbolUsize};
use string_interner::{DefaultSymbol, Symbol};

fn has_the_numbers_below<S: Symbol + Debug>(limit: usize) {
    for number in [0, 1, limit / 2, limit - 1] {
        assert_eq!(S::try_from_usize(number).map(S::to_usize), Some(number));
    }
    for number in [limit, limit.saturating_add(1), usize::MAX] {
        assert_eq!(S::try_from_usize(number), None);
    }
}

#[test]
fn numbers() {
    has_the_numbers_below::<SymbolU16>(65_535);
    has_the_numbers_below::<SymbolU32>(4_294_967_295);
    has_the_numbers_below::<SymbolUsize>(usize::MAX);
    assert_eq!(usize::try_from_usize(usize::MAX), Some(usize::MAX));
    assert_eq!(7_usize.to_usize(), 7);
}

fn are_ordered_by_number<S: Symbol + Debug + Ord + Hash>() {
    let [one, two] = [1, 2].map(|number| S::try_from_usize(number).unwrap());
    assert!(one < two && one == S::try_from_usize(1).unwrap());
    assert_eq!(HashSet::from([one, two, one]).len(), 2);
}

#[test]
fn order_and_hash() {
    are_ordered_by_number::<SymbolU16>();
    are_ordered_by_number::<SymbolU32>();
    are_ordered_by_number::<SymbolUsize>();
}

#[test]
fn an_option_takes_no_more() {
    assert_eq!(
        [size_of::<SymbolU16>(), size_of::<Option<SymbolU16>>()],
        [2, 2]
    );
    assert_eq!(
        [
            size_of::<DefaultSymbol>(),
            size_of::<Option<DefaultSymbol>>()
        ],
        [4, 4]
    );
    assert_eq!(size_of::<Option<SymbolUsize>>(), size_of::<usize>());
}
