//! JSON: an interner is the array of its texts, and a symbol its number.
//!
//! This is for saving an interner and loading it again. Over the same backend the texts keep their symbols, so numbers
//! that were saved elsewhere stay valid.

//~ ghost use Rattle.std.specs.Prelude.{◌≡◌, Ok, IfOk, IsOkAnd};
//~ ghost use Rattle.serde_json.specs.View.{view, items_view};
//~ ghost use Rattle.string_interner.specs.Interner.{HasLeastSlots};
//~ ghost use Rattle.string_interner.specs.Json.{json_of_texts, json_of_number, read_into, refused, KeepsLeastSlots, HasJsonForm, ReadsArray, ReadsArrayExactly, ReadsBack, ReadsElements, ReadsElementsExactly, symbol_read};

use crate::rt::prelude::*; use crate::erased::backend::{Backend, InternError};
use crate::erased::dedup::TextIndex;
use crate::erased::hash::TextHasher;
use crate::erased::interner::StringInterner;
use crate::erased::symbol::Symbol;
use crate::rt::serde_json::Value;
use crate::rt::alloc::{AllocError, Global};
//~ use thiserror::Error;

/// Why a JSON value could not be read.
#[derive(Clone, Copy, Debug, PartialEq, Eq)]
pub enum JsonError {
    /// The symbol type has no symbol for the text, or none with this number.
    //~ #[error("no symbol is left")]
    NoSymbol,
    /// An allocation failed, or the next place does not fit a `usize`.
    //~ #[error("out of memory")]
    Memory(AllocError),
    /// The value is not an array.
    //~ #[error("not a list")]
    NotAList,
    /// The element at this index (0-based) is not a string.
    //~ #[error("element {index} is not a text")]
    NotAText { index: usize },
    /// The element at this index (0-based) is a string equal to an earlier one, where all must differ.
    //~ #[error("element {index} is repeated")]
    Repeated { index: usize },
    /// The value is not an integer from 0 to 2^64 - 1.
    //~ #[error("not a number")]
    NotANumber,
} impl ::core::error::Error for JsonError {} impl ::core::fmt::Display for JsonError { fn fmt(&self, f: &mut ::core::fmt::Formatter<'_>) -> ::core::fmt::Result { match self { Self::NoSymbol { .. } => f.write_str("no symbol is left"), Self::Memory { .. } => f.write_str("out of memory"), Self::NotAList { .. } => f.write_str("not a list"), Self::NotAText { index, .. } => ::core::write!(f, "element {index} is not a text"), Self::Repeated { index, .. } => ::core::write!(f, "element {index} is repeated"), Self::NotANumber { .. } => f.write_str("not a number"), } } }

/// Keeps the reason: `NoSymbol` stays `NoSymbol`, and `Memory` stays `Memory`.
impl From<InternError> for JsonError {
    //~ ghost from_gives = { λ error refusal. refusal ≡ refused error };

    fn from(error: InternError) -> JsonError {
        match error {
            InternError::NoSymbol => JsonError::NoSymbol,
            InternError::Memory(error) => JsonError::Memory(error),
        }
    }
}

impl<B: Backend, H: TextHasher, I: TextIndex<B::Symbol>> StringInterner<B, H, I> {
    /// Returns the array of the texts in insertion order, each a JSON string.
    ///
    /// Returns `Err` only if an allocation fails.
    pub fn to_json(&self, alloc: Global) -> Result<Value, AllocError>
        //~ ensures value { IfOk result (λ value. view value ≡ json_of_texts self.now.texts) }
    {
        let mut elements = Vec::with_capacity(alloc, self.len())?;
        for (_, text) in self.iter() {
            elements.push_reserved(Value::try_from_str(alloc, text)?);
        }
        Ok(Value::from(elements))
    }
}

impl<B: Backend, H: TextHasher, I: TextIndex<B::Symbol>> StringInterner<B, H, I> {
    /// Interns the elements of an array in order. The first that fails decides.
    fn read_elements(&mut self, elements: &[Value]) -> Result<(), JsonError>
        //~ ensures reads { ReadsElements B.numbering self.old.texts 0 (items_view elements.now)
        //~     (read_into self.new result) }
        //~ ensures slots { IfOk result (λ _. KeepsLeastSlots I.rule self.old self.new) }
    {
        for (index, element) in elements.iter().enumerate() {
            let text = element.as_str().ok_or(JsonError::NotAText { index })?;
            self.get_or_intern(text)?;
            // For the proof: states the load factor.
            let _ = self.len();
        }
        Ok(())
    }

    /// Interns the elements of an array in order, which must all be new. The first that fails decides.
    fn read_elements_exactly(&mut self, elements: &[Value]) -> Result<(), JsonError>
        //~ ensures reads { ReadsElementsExactly B.numbering self.old.texts 0
        //~     (items_view elements.now) (read_into self.new result) }
        //~ ensures slots { IfOk result (λ _. KeepsLeastSlots I.rule self.old self.new) }
    {
        for (index, element) in elements.iter().enumerate() {
            let text = element.as_str().ok_or(JsonError::NotAText { index })?;
            let known = self.len();
            self.get_or_intern(text)?;
            if self.len() == known {
                return Err(JsonError::Repeated { index });
            }
        }
        Ok(())
    }
}

impl<
    B: Backend + Drop,
    H: TextHasher + Default + Drop,
    I: TextIndex<B::Symbol> + Drop,
> StringInterner<B, H, I> {
    /// Makes an interner from a JSON array of strings, under the hasher's default.
    ///
    /// It interns the elements in order, so a repeat adds no text: `["a", "b", "a"]` gives the texts a and b. The index
    /// has the least slot count for its texts. What `to_json` of an interner of the same type returned gives the same
    /// texts with the same symbols, unless an allocation fails.
    ///
    /// Returns `NotAList` if the value is not an array. Else the first element that fails decides: it returns
    /// `NotAText` if it is not a string, and fails as in `get_or_intern` if it is.
    pub fn from_json(alloc: Global, value: &Value) -> Result<Self, JsonError>
        //~ ensures reads { ReadsArray B.numbering (view value.now) result }
        //~ ensures slots { IfOk result (HasLeastSlots I.rule) }

        // What `to_json` returned is read back.
        //~ ensures gives_back { ReadsBack B.numbering (view value.now) result }
    {
        StringInterner::from_json_with_hasher(alloc, value, H::default())
    }

    /// Makes an interner from a JSON array of distinct strings, under the hasher's default. The array is then what
    /// `to_json` returns.
    ///
    /// Reads and fails as `from_json` does, but accepts no repeats: a string equal to an earlier element returns
    /// `Repeated`, before it looks for a symbol or memory. `["a", "b", "a"]` fails at index 2.
    pub fn from_json_exact(alloc: Global, value: &Value) -> Result<Self, JsonError>
        //~ ensures reads { ReadsArrayExactly B.numbering (view value.now) result }
        //~ ensures form { IfOk result (HasJsonForm (view value.now)) }
        //~ ensures slots { IfOk result (HasLeastSlots I.rule) }

        // What `to_json` returned is read back.
        //~ ensures gives_back { ReadsBack B.numbering (view value.now) result }
    {
        StringInterner::from_json_exact_with_hasher(alloc, value, H::default())
    }
}

impl<B: Backend + Drop, H: TextHasher + Drop, I: TextIndex<B::Symbol> + Drop> StringInterner<
    B,
    H,
    I,
> {
    /// Makes an interner from a JSON array of strings as `from_json` does, under this hasher.
    pub fn from_json_with_hasher(alloc: Global, value: &Value, hasher: H) -> Result<Self, JsonError>
        //~ ensures reads { ReadsArray B.numbering (view value.now) result }
        //~ ensures slots { IfOk result (HasLeastSlots I.rule) }

        // What `to_json` returned is read back.
        //~ ensures gives_back { ReadsBack B.numbering (view value.now) result }
    {
        let elements = value.as_array().ok_or(JsonError::NotAList)?;
        let mut interner = StringInterner::with_hasher(alloc, hasher);
        interner.read_elements(elements)?;
        Ok(interner)
    }

    /// Makes an interner from a JSON array of distinct strings as `from_json_exact` does, under this hasher.
    pub fn from_json_exact_with_hasher(
        alloc: Global,
        value: &Value,
        hasher: H,
    ) -> Result<Self, JsonError>
        //~ ensures reads { ReadsArrayExactly B.numbering (view value.now) result }
        //~ ensures form { IfOk result (HasJsonForm (view value.now)) }
        //~ ensures slots { IfOk result (HasLeastSlots I.rule) }

        // What `to_json` returned is read back.
        //~ ensures gives_back { ReadsBack B.numbering (view value.now) result }
    {
        let elements = value.as_array().ok_or(JsonError::NotAList)?;
        let mut interner = StringInterner::with_hasher(alloc, hasher);
        interner.read_elements_exactly(elements)?;
        Ok(interner)
    }
}

/// Returns the number of a symbol as a JSON number. Always returns `Ok`, since a JSON number needs no memory.
pub fn symbol_to_json<S: Symbol>(_alloc: Global, symbol: S) -> Result<Value, AllocError>
    //~ ensures value { IsOkAnd result (λ value. view value ≡ json_of_number (S.number symbol)) }

    // `symbol_from_json` reads the symbol back.
    //~ ensures gives_back { IsOkAnd result
    //~     (λ value. symbol_read S.symbol_of (view value) ≡ Ok symbol) }
{
    Ok(Value::from(symbol.to_usize()))
}

/// Returns the symbol whose number the JSON value is. Allocates nothing.
///
/// Returns `NotANumber` if the value is not an integer from 0 to 2^64 - 1, and `NoSymbol` if the symbol type has no
/// symbol with that number.
pub fn symbol_from_json<S: Symbol>(value: &Value) -> Result<S, JsonError>
    //~ ensures { result ≡ symbol_read S.symbol_of (view value.now) }
{
    let number = value.as_u64().ok_or(JsonError::NotANumber)?;
    S::try_from_usize(number as usize).ok_or(JsonError::NoSymbol)
}
