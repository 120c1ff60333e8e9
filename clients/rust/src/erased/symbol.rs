//! Symbols: small `Copy` values that stand for texts. A symbol is determined by its number.
//!
//! Choose the type by how many texts there may be, or write your own by the trait [`Symbol`]. The types here have all
//! numbers below a limit, and check it before they cast: 70,000 has a symbol in [`SymbolU32`], and none in [`SymbolU16`].

use crate::rt::prelude::*; pub mod law;

//~ ghost use Rattle.std.specs.Prelude.{◌≡◌, ℕ, ◌^◌, ◌<◌, ◌-◌, ◌↔◌, Option, Some, IsTrue};
//~ ghost use Rattle.std.proofs.Common.{rules, lit≤};
//~ ghost use Rattle.string_interner.specs.Symbol.{AreNarrow, number_below, number_below-some};

pub use law::order_law;
use crate::rt::marker::Model;

/// The default symbol type of a backend.
pub type DefaultSymbol = SymbolU32;

/// A symbol, determined by its number. The numbers of a type fit a `usize`, and may have gaps.
pub trait Symbol: Sized + Copy + Eq {
    //~ /// The number of a symbol.
    //~ ghost number: { Self → ℕ };

    //~ /// The symbol with a number, if the type has one.
    //~ ghost symbol_of: { ℕ → Option Self };

    /// Returns the symbol with the number `index`: `None` exactly if the type has no such symbol.
    fn try_from_usize(index: usize) -> Option<Self>;
        //~ ensures { result ≡ symbol_of index };

    /// Returns the number of this symbol. `try_from_usize` of it returns this symbol.
    fn to_usize(self) -> usize;
        //~ ensures value { result ≡ number self }
        //~ ensures found_again { symbol_of result ≡ Some self };

    /// Returns `true` only if all numbers of the type are below 2^32 - 1.
    ///
    /// A slot of an [`Index`](crate::dedup::Index) then takes four bytes. Otherwise it takes an `Option` of a symbol, and
    /// four bytes more if the number 2^32 - 1 has no symbol.
    #[inline(always)]
    fn has_narrow_numbers() -> bool
        //~ ensures { IsTrue result → AreNarrow symbol_of }
    {
        false
    }

    //~ /// The symbol with a number has that number, and the number fits a `usize`.
    //~ ghost numbered: { (i : ℕ) (s : Self) → symbol_of i ≡ Some s → (number s ≡ i) × (i < 2 ^ 64) };

    //~ /// `==` compares numbers.
    //~ ghost equal_by_number: { (a b : Self) → IsTrue (Self.eq a b) ↔ (number a ≡ number b) };

    //~ /// Symbols with equal numbers are equal.
    //~ ghost injective: { (a b : Self) → number a ≡ number b → a ≡ b };
}

/// A symbol in two bytes, with the numbers from 0 to 65534.
#[derive(Clone, Copy, PartialEq, Eq, PartialOrd, Ord, Hash, Debug)]
pub struct SymbolU16 {
    value: u16,
}

//~ /// Contracts see the number.
//~ impl Model for SymbolU16 {
//~     ghost Value = { ℕ };
//~
//~     ghost view = { λ symbol. symbol.value };
//~
//~     ghost invariant = { λ symbol. symbol.value < 2 ^ 16 - 1 };
//~
//~     ghost inverse = { λ n. record { value = n } };
//~ }

impl Symbol for SymbolU16 {
    //~ ghost number = { λ symbol. symbol };

    //~ ghost symbol_of = { number_below (2 ^ 16 - 1) };

    fn try_from_usize(index: usize) -> Option<Self> {
        if index < u16::MAX as usize {
            Some(SymbolU16 {
                value: index as u16,
            })
        } else {
            None
        }
    }

    fn to_usize(self) -> usize {
        usize::from(self.value)
    }

    #[inline(always)]
    fn has_narrow_numbers() -> bool {
        true
    }

    //~ ghost numbered = { number_below-some (2 ^ 16 - 1) (lit≤ tt) };

    //~ ghost equal_by_number = { Prim.search rules };

    //~ ghost injective = { λ a b same. same };
}

/// A symbol in four bytes, with the numbers from 0 to 2^32 - 2.
#[derive(Clone, Copy, PartialEq, Eq, PartialOrd, Ord, Hash, Debug)]
pub struct SymbolU32 {
    value: u32,
}

//~ /// Contracts see the number.
//~ impl Model for SymbolU32 {
//~     ghost Value = { ℕ };
//~
//~     ghost view = { λ symbol. symbol.value };
//~
//~     ghost invariant = { λ symbol. symbol.value < 2 ^ 32 - 1 };
//~
//~     ghost inverse = { λ n. record { value = n } };
//~ }

impl Symbol for SymbolU32 {
    //~ ghost number = { λ symbol. symbol };

    //~ ghost symbol_of = { number_below (2 ^ 32 - 1) };

    fn try_from_usize(index: usize) -> Option<Self> {
        if index < u32::MAX as usize {
            Some(SymbolU32 {
                value: index as u32,
            })
        } else {
            None
        }
    }

    fn to_usize(self) -> usize {
        self.value as usize
    }

    #[inline(always)]
    fn has_narrow_numbers() -> bool {
        true
    }

    //~ ghost numbered = { number_below-some (2 ^ 32 - 1) (lit≤ tt) };

    //~ ghost equal_by_number = { Prim.search rules };

    //~ ghost injective = { λ a b same. same };
}

/// A symbol in eight bytes, with the numbers from 0 to 2^64 - 2.
#[derive(Clone, Copy, PartialEq, Eq, PartialOrd, Ord, Hash, Debug)]
pub struct SymbolUsize {
    value: usize,
}

//~ /// Contracts see the number.
//~ impl Model for SymbolUsize {
//~     ghost Value = { ℕ };
//~
//~     ghost view = { λ symbol. symbol.value };
//~
//~     ghost invariant = { λ symbol. symbol.value < 2 ^ 64 - 1 };
//~
//~     ghost inverse = { λ n. record { value = n } };
//~ }

impl Symbol for SymbolUsize {
    //~ ghost number = { λ symbol. symbol };

    //~ ghost symbol_of = { number_below (2 ^ 64 - 1) };

    fn try_from_usize(index: usize) -> Option<Self> {
        if index < usize::MAX {
            Some(SymbolUsize { value: index })
        } else {
            None
        }
    }

    fn to_usize(self) -> usize {
        self.value
    }

    //~ ghost numbered = { number_below-some (2 ^ 64 - 1) (lit≤ tt) };

    //~ ghost equal_by_number = { Prim.search rules };

    //~ ghost injective = { λ a b same. same };
}

/// A `usize` is the symbol with its number.
impl Symbol for usize {
    //~ ghost number = { λ symbol. symbol };

    //~ ghost symbol_of = { number_below (2 ^ 64) };

    fn try_from_usize(index: usize) -> Option<Self> {
        Some(index)
    }

    fn to_usize(self) -> usize {
        self
    }

    //~ ghost numbered = { number_below-some (2 ^ 64) (lit≤ tt) };

    //~ ghost equal_by_number = { Prim.search rules };

    //~ ghost injective = { λ a b same. same };
}
