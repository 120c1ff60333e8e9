//! The symbols of a dictionary's entries, in order.

//~ ghost use Rattle.std.specs.Prelude.{◌≡◌, ◌<◌, ◌-◌, ◌^◌, ◌⊎◌, [], ◌∷◌, ◌++◌, All, length, slice_get, Some, IfOk, OnOk, OnErr};
//~ ghost use Rattle.string_column.specs.Ahead.{IsListed};
//~ ghost use Rattle.string_column.specs.Entries.{NumbersAscend};

use crate::rt::prelude::*; use crate::rt::alloc::{AllocError, Global};
use crate::rt::marker::Model;
use crate::erased::Symbol;

/// Symbols whose numbers ascend. Those at the front whose number is their index take no memory: over most backends these are all.
//~ #[derive(Drop)]
pub struct SymbolList<S: Symbol> {
    /// How many at the front are not stored.
    plain: usize,
    /// The symbols behind them.
    others: Vec<S>,
}

//~ /// Contracts see all symbols.
//~ impl<S: Symbol> Model for SymbolList<S> {
//~     ghost use Rattle.std.specs.Prelude.{ℕ, List, ◌++◌, ◌+◌, ◌<◌, ◌^◌, length, IsSome};
//~     ghost use Rattle.string_column.specs.Symbols.{symbols_below, IsSymbolList};
//~
//~     ghost Value = { List S };
//~
//~     ghost view = { λ l. symbols_below S.symbol_of l.plain ++ l.others.items };
//~
//~     ghost invariant = { λ l. IsSymbolList S.symbol_of l.plain l.others.items };
//~ }

/// Returns the index of a symbol of the list.
#[inline]
fn index_of<S: Symbol>(symbols: &[S], symbol: S) -> usize
    //~ requires ascend { NumbersAscend S.number symbols.now }
    //~ requires listed { IsListed symbols.now symbol }
    //~ ensures { slice_get symbols.now result ≡ Some symbol }
{
    let number = symbol.to_usize();
    symbols.partition_point(|other| other.to_usize() < number)
}

/// Returns the index of a symbol, which is of the list, or has a greater number than all of it and is then put last.
///
/// Returns `Err`, and changes nothing, only if an allocation fails.
#[inline(always)]
fn take_symbol<S: Symbol>(symbols: &mut Vec<S>, symbol: S) -> Result<usize, AllocError>
    //~ requires ascend { NumbersAscend S.number symbols.old.items }
    //~ requires known { IsListed symbols.old.items symbol
    //~     ⊎ All (λ other. S.number other < S.number symbol) symbols.old.items }
    //~ ensures listed { OnOk result (IsListed symbols.old.items symbol
    //~     → symbols.new.items ≡ symbols.old.items) }
    //~ ensures is_new { OnOk result (All (λ other. S.number other < S.number symbol) symbols.old.items
    //~     → symbols.new.items ≡ symbols.old.items ++ symbol ∷ []) }
    //~ ensures index { IfOk result (λ index. slice_get symbols.new.items index ≡ Some symbol) }
    //~ ensures err { OnErr result (symbols.new.items ≡ symbols.old.items) }
{
    let count = symbols.len();
    match symbols.last() {
        Some(last) if symbol.to_usize() <= last.to_usize() => Ok(index_of(symbols, symbol)),
        _ => {
            symbols.push(symbol)?;
            Ok(count)
        }
    }
}

impl<S: Symbol> SymbolList<S> {
    /// Makes an empty list. Allocates nothing.
    pub fn new(alloc: Global) -> Self
        //~ ensures { result ≡ [] }
    {
        SymbolList {
            plain: 0,
            others: Vec::new(alloc),
        }
    }

    /// Returns the number of symbols.
    pub fn len(&self) -> usize
        //~ ensures { result ≡ length self.now }
    {
        self.plain + self.others.len()
    }

    /// Returns the symbol at an index.
    #[inline(always)]
    pub fn at(&self, index: usize) -> S
        //~ requires { index < length self.now }
        //~ ensures { slice_get self.now index ≡ Some result }
    {
        if index >= self.plain {
            return self.others[index - self.plain];
        }
        let Some(symbol) = S::try_from_usize(index) else {
            unreachable!()
        };
        symbol
    }

    /// Returns the index of a symbol, which is of the list, or has a greater number than all of it and is then put last.
    ///
    /// Returns `Err`, and changes nothing, only if an allocation fails.
    #[inline(always)]
    pub fn find_or_push(&mut self, symbol: S) -> Result<usize, AllocError>
        //~ requires ascend { NumbersAscend S.number self.old }
        //~ requires known { IsListed self.old symbol
        //~     ⊎ All (λ other. S.number other < S.number symbol) self.old }
        //~ requires fits { S.number symbol < 2 ^ 64 - 1 }
        //~ ensures listed { OnOk result (IsListed self.old symbol → self.new ≡ self.old) }
        //~ ensures is_new { OnOk result (All (λ other. S.number other < S.number symbol) self.old
        //~     → self.new ≡ self.old ++ symbol ∷ []) }
        //~ ensures index { IfOk result (λ index. slice_get self.new index ≡ Some symbol) }
        //~ ensures err { OnErr result (self.new ≡ self.old) }
    {
        let number = symbol.to_usize();
        if number < self.plain {
            return Ok(number);
        }
        if number == self.plain && self.others.is_empty() {
            self.plain += 1;
            return Ok(number);
        }
        let index = take_symbol(&mut self.others, symbol)?;
        Ok(self.plain + index)
    }

    /// Drops all symbols. Releases no memory.
    pub fn clear(&mut self)
        //~ ensures { self.new ≡ [] }
    {
        self.plain = 0;
        self.others.clear();
    }
}
