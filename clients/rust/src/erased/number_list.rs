//! Lists of numbers that take four bytes each as long as they fit, such as codes or the ends of texts.

//~ ghost use Rattle.std.specs.Prelude.{◌≡◌, ◌==◌, ◌&&◌, nat_lt, vec_capacity, ◌-◌, ◌^◌, ◌<◌, ◌≤◌, [], ◌∷◌, ◌++◌, length, take, slice_get, slice_index, IfOk, IsOk, OnOk, OnErr};
//~ ghost use Rattle.std.specs.Str.{bytes_eq};
//~ ghost use Rattle.std.specs.Cmp.{partial_equiv_from_equiv, on_equiv};
//~ ghost use Rattle.std.proofs.lemmas.Cmp.{nat_list_eq_equiv};
//~ ghost use Rattle.string_interner.specs.NumberList.{NumberListContents};

use crate::rt::prelude::*; use crate::erased::backend::reserve::reserve_items;
use crate::rt::alloc::{AllocError, Global};
use crate::rt::marker::Model;
use crate::rt::mem::size_of;

/// A list of numbers: four bytes each until one does not fit 32 bits, and eight from that one on.
///
/// A stored number is never converted from one size to the other. Once there is capacity for numbers of eight bytes, each new
/// number takes eight, whatever its size. From 1 MiB on the list grows by a quarter.
///
/// ```ignore
/// let mut numbers = NumberList::with_capacity(alloc, 100, 1_000)?; // for 100 numbers, each at most 1,000
/// numbers.push(7)?;
/// numbers.get(0); // Some(7)
/// ```
//~ #[derive(Drop)]
pub struct NumberList {
    narrow: Vec<u32>,
    wide: Vec<usize>,
}

//~ /// Contracts see one list, and what can be stored without an allocation: how many numbers, up to which.
//~ impl Model for NumberList {
//~     ghost use Rattle.std.specs.Prelude.{◌-◌, ◌^◌, ◌==◌, ◌++◌, if◌then◌else◌, vec_len, vec_capacity};
//~     ghost use Rattle.string_interner.specs.NumberList.{NumberListContents};
//~
//~     ghost Value = { NumberListContents };
//~
//~     ghost view = { λ l. record {
//~       items = l.narrow.items ++ l.wide.items;
//~       spare = if vec_capacity l.wide == 0
//~           then vec_capacity l.narrow - vec_len l.narrow
//~           else vec_capacity l.wide - vec_len l.wide;
//~       limit = if vec_capacity l.wide == 0 then 2 ^ 32 - 1 else 2 ^ 64 - 1;
//~     } };
//~ }

/// Returns whether a new number goes into `narrow`: it fits 32 bits, and `wide` has no capacity.
#[inline(always)]
fn is_narrow(number: usize, wide: &Vec<usize>) -> bool
    //~ ensures { result ≡ (nat_lt number (2 ^ 32) && vec_capacity wide.now == 0) }
{
    number <= u32::MAX as usize && wide.capacity() == 0
}

impl NumberList {
    /// Makes an empty list. Allocates nothing.
    pub fn new(alloc: Global) -> Self
        //~ ensures items { result.items ≡ [] }
        //~ ensures spare { result.spare ≡ 0 }
    {
        NumberList {
            narrow: Vec::new(alloc),
            wide: Vec::new(alloc),
        }
    }

    /// Makes an empty list with capacity for `capacity` numbers up to `limit`. Returns `Err` only if an allocation fails.
    pub fn with_capacity(alloc: Global, capacity: usize, limit: usize) -> Result<Self, AllocError>
        //~ ensures items { IfOk result (λ numbers. numbers.items ≡ []) }
        //~ ensures spare { IfOk result (λ numbers. capacity ≤ numbers.spare) }
        //~ ensures limit { IfOk result (λ numbers. 0 < capacity → limit ≤ numbers.limit) }
    {
        let (narrow, wide) = if limit <= u32::MAX as usize {
            (capacity, 0)
        } else {
            (0, capacity)
        };
        Ok(NumberList {
            narrow: Vec::with_capacity(alloc, narrow)?,
            wide: Vec::with_capacity(alloc, wide)?,
        })
    }

    /// Returns the allocator of the list.
    pub fn allocator(&self) -> Global {
        *self.narrow.allocator()
    }

    /// Returns how many numbers there are, in constant time.
    #[inline(always)]
    pub fn len(&self) -> usize
        //~ ensures { result ≡ length self.now.items }
    {
        self.narrow.len() + self.wide.len()
    }

    /// Returns the number at an index, or `None` if there are at most `index` numbers. Takes constant time.
    #[inline]
    pub fn get(&self, index: usize) -> Option<usize>
        //~ ensures { result ≡ slice_get self.now.items index }
    {
        if index < self.len() {
            Some(self.at(index))
        } else {
            None
        }
    }

    /// Returns the number at an index that exists, in constant time.
    #[inline(always)]
    pub fn at(&self, index: usize) -> usize
        //~ requires { index < length self.now.items }
        //~ ensures { result ≡ slice_index self.now.items index }
    {
        match self.narrow.get(index) {
            Some(&number) => number as usize,
            None => self.wide[index - self.narrow.len()],
        }
    }

    /// Returns the numbers as they are stored: those of four bytes, and after them those of eight.
    #[inline(always)]
    pub fn as_slices(&self) -> (&[u32], &[usize])
        //~ ensures { self.now.items ≡ result.0.now ++ result.1.now }
    {
        (&self.narrow, &self.wide)
    }

    /// Returns how many bytes of memory the list takes, with what is spare.
    pub fn memory_used(&self) -> usize {
        let narrow = self.narrow.capacity().saturating_mul(size_of::<u32>());
        let wide = self.wide.capacity().saturating_mul(size_of::<usize>());
        narrow.saturating_add(wide)
    }

    /// Makes sure that `push_reserved` can store this number or a smaller one. Allocates only if it goes beyond what is spare.
    ///
    /// Returns `Err`, and changes nothing, only if an allocation fails.
    #[inline(always)]
    pub fn reserve(&mut self, number: usize) -> Result<(), AllocError>
        //~ ensures items { self.new.items ≡ self.old.items }
        //~ ensures ok { OnOk result ((0 < self.new.spare) × (number ≤ self.new.limit)) }
        //~ ensures granted { 0 < self.old.spare → number ≤ self.old.limit → IsOk result
        //~     × (self.old.spare ≤ self.new.spare) × (self.old.limit ≤ self.new.limit) }
        //~ ensures err { OnErr result (self.new ≡ self.old) }
    {
        if is_narrow(number, &self.wide) {
            reserve_items(&mut self.narrow, 1)
        } else {
            reserve_items(&mut self.wide, 1)
        }
    }

    /// Appends a number for which `reserve` made sure. Allocates nothing.
    #[inline(always)]
    pub fn push_reserved(&mut self, number: usize)
        //~ requires spare { 0 < self.old.spare }
        //~ requires within { number ≤ self.old.limit }
        //~ ensures items { self.new.items ≡ self.old.items ++ number ∷ [] }
        //~ ensures spare { self.new.spare ≡ self.old.spare - 1 }
        //~ ensures limit { self.new.limit ≡ self.old.limit }
        //~ ensures fits { length self.new.items < 2 ^ 64 }
    {
        // As long as `wide` has no capacity, `reserve` made sure that the number fits 32 bits.
        if self.wide.capacity() == 0 {
            self.narrow.push_reserved(number as u32);
        } else {
            self.wide.push_reserved(number);
        }
    }

    /// Appends a number, in constant time on average. Allocates only if it goes beyond what is spare.
    ///
    /// Returns `Err`, and changes nothing, only if there was no spare capacity for it and an allocation fails.
    pub fn push(&mut self, number: usize) -> Result<(), AllocError>
        //~ ensures ok { OnOk result (self.new.items ≡ self.old.items ++ number ∷ []) }
        //~ ensures granted { 0 < self.old.spare → number ≤ self.old.limit → IsOk result
        //~     × (self.old.spare - 1 ≤ self.new.spare) × (self.old.limit ≤ self.new.limit) }
        //~ ensures err { OnErr result (self.new ≡ self.old) }
    {
        self.reserve(number)?;
        self.push_reserved(number);
        Ok(())
    }

    /// Keeps the first `len` numbers. Allocates nothing, and gives no capacity back.
    pub fn truncate(&mut self, len: usize)
        //~ ensures items { self.new.items ≡ take len self.old.items }
        //~ ensures spare { self.old.spare ≤ self.new.spare }
        //~ ensures limit { self.new.limit ≡ self.old.limit }
    {
        self.wide.truncate(len.saturating_sub(self.narrow.len()));
        self.narrow.truncate(len);
    }

    /// Reduces spare capacity if it can.
    pub fn shrink_to_fit(&mut self)
        //~ ensures items { self.new.items ≡ self.old.items }
        //~ ensures spare { self.new.spare ≤ self.old.spare }
        //~ ensures limit { self.new.limit ≤ self.old.limit }
        //~ ensures frees { self.old.items ≡ [] → self.new.spare ≡ 0 }
    {
        self.narrow.shrink_to_fit();
        // Without capacity in `wide` that of `narrow` counts: no more than there was in `wide`.
        if self.narrow.capacity() - self.narrow.len() <= self.wide.capacity() {
            self.wide.shrink_to_fit();
        }
    }

    /// Returns an equal list. Returns `Err` only if an allocation fails.
    pub fn clone(&self) -> Result<Self, AllocError>
        //~ ensures { IfOk result (λ copy. copy.items ≡ self.now.items) }
    {
        let alloc = self.allocator();
        Ok(NumberList {
            narrow: Vec::from_slice(alloc, &self.narrow)?,
            wide: Vec::from_slice(alloc, &self.wide)?,
        })
    }

    /// Returns whether the lists are equal, number by number.
    fn is_equal_by_index(&self, other: &Self) -> bool
        //~ ensures { result ≡ bytes_eq self.now.items other.now.items }
    {
        let count = self.len();
        if count != other.len() {
            return false;
        }
        for i in 0..count {
            if self.at(i) != other.at(i) {
                return false;
            }
        }
        true
    }
}

/// Equal exactly if the lists are, however they are divided.
impl PartialEq for NumberList {
    //~ ghost eq = { λ a b. bytes_eq a.items b.items };

    //~ ghost laws = { partial_equiv_from_equiv
    //~     (on_equiv (λ (l : NumberListContents). l.items) nat_list_eq_equiv) };

    fn eq(&self, other: &Self) -> bool {
        if self.narrow.len() == other.narrow.len() {
            self.narrow == other.narrow && self.wide == other.wide
        } else {
            self.is_equal_by_index(other)
        }
    }
}
