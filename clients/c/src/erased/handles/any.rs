//! An interner of any kind.

//~ ghost use Rattle.std.specs.Prelude.{◌≡◌, ◌↔◌, length, IfOk, IsTrue};
//~ ghost use Rattle.std.specs.Option.{option_copied};
//~ ghost use Rattle.serde_json.specs.View.{view};
//~ ghost use Rattle.string_interner.specs.Json.{json_of_texts};
//~ ghost use Rattle.handles.specs.Any.{FindsAny, InternsAny, IsAnyCopy, IsEmpty, IsMade, IsShrunk, KeepsFirst, Knows, ReadsAs, ReadsAsExactly, any_eq, any_of, numbering_of, text_at, texts_in};
//~ ghost use Rattle.string_interner.specs.Interner.{InternsInto, IsInternerList};
//~ ghost use Rattle.string_interner.specs.LoadFactor.{seven_eighths};
//~ ghost use Rattle.handles.specs.Calls.{ResolvesSymbol};
//~ ghost use Rattle.handles.specs.Kind.{numbering_in};
//~ ghost use Rattle.handles.specs.declared.kind.Kind.{Kind};
//~ ghost use Rattle.handles.specs.Status.{TellsInterned, outcome_of};

use crate::rt::prelude::*; /// Evaluates an expression for the interner, whatever its kind.
macro_rules! each {
    ($any:expr, $interner:ident => $value:expr) => {
        match $any {
            AnyInterner::String($interner) => $value,
            AnyInterner::Bucket($interner) => $value,
            AnyInterner::Buffer($interner) => $value,
        }
    };
}

pub mod entries;
pub mod guessed;
pub mod intern_many;
pub mod joined;
pub mod one_kind;
pub mod part;

use crate::handles::hasher::ChosenHasher;
use crate::handles::kind::Kind;
use crate::handles::status::{Status, tell};
use crate::handles::text::Text;
use crate::rt::serde_json::Value;
use crate::rt::alloc::{AllocError, Global};
use crate::erased::StringInterner;
use crate::erased::backend::{
    Backend, BucketBackend, BufferBackend, InternError, Store, StringBackend,
};
use crate::erased::dedup::TaggedIndex;
use crate::erased::json::JsonError;
use crate::erased::symbol::{Symbol, SymbolU32};

/// A `FastStringInterner` over a backend, except that its hasher is chosen at run time.
type HashedInterner<B> = StringInterner<B, ChosenHasher, TaggedIndex<<B as Store>::Symbol>>;

/// An interner of one of the kinds.
//~ #[derive(Drop)]
pub enum AnyInterner {
    String(HashedInterner<StringBackend<SymbolU32>>),
    Bucket(HashedInterner<BucketBackend<SymbolU32>>),
    Buffer(HashedInterner<BufferBackend<SymbolU32>>),
}

/// Makes an interner of this kind from an expression for the interner in it.
macro_rules! make {
    ($kind:expr, $value:expr) => {
        match $kind {
            Kind::String => AnyInterner::String($value),
            Kind::Bucket => AnyInterner::Bucket($value),
            Kind::Buffer => AnyInterner::Buffer($value),
        }
    };
}

/// Returns a symbol as C stores it.
#[inline(always)]
fn to_u32(symbol: SymbolU32) -> u32
    //~ ensures { result ≡ symbol }
{
    symbol.to_usize() as u32
}

/// Returns the symbol that was found as C stores it, if there is one.
#[inline(always)]
fn symbol_found(found: Option<SymbolU32>) -> Option<u32>
    //~ ensures { result ≡ found }
{
    match found {
        Some(symbol) => Some(to_u32(symbol)),
        None => None,
    }
}

/// Returns the symbol that a text was interned under as C stores it.
#[inline(always)]
fn symbol_given(outcome: Result<SymbolU32, InternError>) -> Result<u32, InternError>
    //~ ensures { result ≡ outcome }
{
    match outcome {
        Ok(symbol) => Ok(to_u32(symbol)),
        Err(error) => Err(error),
    }
}

/// Returns the symbol that a text was interned under, or the status that says why it was not.
#[inline(always)]
fn status_given(outcome: Result<SymbolU32, InternError>) -> Result<u32, Status>
    //~ ensures { result ≡ outcome_of outcome }
{
    Ok(symbol_given(outcome)?)
}

/// Writes the symbol of a text, and returns the code of the outcome. Appends a new text.
///
/// There is one function for each kind, and a call from C jumps to it. The library's `get_or_intern` is inlined in it, so it
/// calls nothing for a known text.
#[inline(never)]
fn write_symbol_in<B: Backend<Symbol = SymbolU32>>(
    interner: &mut HashedInterner<B>,
    text: &str,
    symbol: &mut u32,
) -> u32
    //~ ensures { TellsInterned (InternsInto B.numbering seven_eighths interner.old text.now)
    //~     interner.new result symbol.old symbol.new }
{
    tell(status_given(interner.get_or_intern(text)), symbol)
}

/// Returns the text at a symbol, if there is one.
#[inline(always)]
fn resolve_in<B: Backend<Symbol = SymbolU32>>(
    interner: &HashedInterner<B>,
    symbol: u32,
) -> Option<&str>
    //~ ensures { (kind : Kind) → numbering_in kind ≡ B.numbering
    //~     → option_copied result ≡ text_at (any_of kind interner.now) symbol }
{
    let symbol = SymbolU32::try_from_usize(symbol as usize)?;
    interner.resolve(symbol)
}

impl AnyInterner {
    /// Makes an empty interner of this kind with this hasher, without spare capacity. Allocates nothing.
    pub fn new(alloc: Global, kind: Kind, hasher: ChosenHasher) -> AnyInterner
        //~ ensures { IsEmpty kind result }
    {
        make!(kind, StringInterner::with_hasher(alloc, hasher))
    }

    /// Makes an empty interner of this kind with this hasher, and with spare capacity for `capacity` texts.
    pub fn with_capacity(
        alloc: Global,
        kind: Kind,
        capacity: usize,
        hasher: ChosenHasher,
    ) -> Result<AnyInterner, AllocError>
        //~ ensures { IfOk result (IsMade kind capacity) }
    {
        Ok(make!(
            kind,
            StringInterner::with_capacity_and_hasher(alloc, capacity, hasher)?
        ))
    }

    /// Returns the number of texts.
    pub fn len(&self) -> usize
        //~ ensures value { result ≡ length (texts_in self.now) }
        //~ ensures list { IsInternerList (numbering_of self.now) (texts_in self.now) }
    {
        each!(self, interner => interner.len())
    }

    /// Returns the symbol of a text, if it is known.
    #[inline(always)]
    pub fn get(&self, text: &str) -> Option<u32>
        //~ ensures { FindsAny self.now text.now result }
    {
        symbol_found(each!(self, interner => interner.get(text)))
    }

    /// Reports whether a text is known.
    pub fn contains(&self, text: &str) -> bool
        //~ ensures { IsTrue result ↔ Knows self.now text.now }
    {
        each!(self, interner => interner.contains(text))
    }

    /// Writes the symbol of a text, and returns the code of the outcome. Appends a new text.
    #[inline(always)]
    pub fn write_symbol(&mut self, text: &str, symbol: &mut u32) -> u32
        //~ ensures { TellsInterned (InternsAny self.old text.now) self.new
        //~     result symbol.old symbol.new }
    {
        each!(self, interner => write_symbol_in(interner, text, symbol))
    }

    /// Returns the symbol of a text. Appends a new text.
    pub fn get_or_intern(&mut self, text: &str) -> Result<u32, InternError>
        //~ ensures { InternsAny self.old text.now result self.new }
    {
        symbol_given(each!(self, interner => interner.get_or_intern(text)))
    }

    /// Returns the symbol of a text, as `get_or_intern` does. A new text may be borrowed and not copied.
    pub fn get_or_intern_static(&mut self, text: &'static str) -> Result<u32, InternError>
        //~ ensures { InternsAny self.old text.now result self.new }
    {
        symbol_given(each!(self, interner => interner.get_or_intern_static(text)))
    }

    /// Returns the text at a symbol, if there is one.
    ///
    /// Inlined, so that the text goes to the caller's memory at once: through memory between, a load of its pointer and its
    /// length together waits for both to be written.
    #[inline(always)]
    pub fn resolve(&self, symbol: u32) -> Option<&str>
        //~ ensures { option_copied result ≡ text_at self.now symbol }
    {
        each!(self, interner => resolve_in(interner, symbol))
    }

    /// Lends the text at a symbol, as C sees it.
    #[inline(always)]
    pub fn lend<'a>(&'a self, symbol: u32) -> Result<Text<'a>, Status>
        //~ ensures { ResolvesSymbol symbol self.now result }
    {
        match self.resolve(symbol) {
            Some(text) => Ok(Text {
                bytes: text.as_bytes(),
            }),
            None => Err(Status::Nothing),
        }
    }

    /// Keeps the first `len` texts.
    pub fn truncate(&mut self, len: usize)
        //~ ensures { KeepsFirst len self.old self.new }
    {
        each!(self, interner => interner.truncate(len))
    }

    /// Releases memory that no text needs, if it can.
    pub fn shrink_to_fit(&mut self)
        //~ ensures { IsShrunk self.old self.new }
    {
        each!(self, interner => interner.shrink_to_fit())
    }

    /// Makes a copy: an interner of the same kind under the same hasher, with the same texts under the same symbols, and as
    /// many slots.
    pub fn try_copy(&self) -> Result<AnyInterner, AllocError>
        //~ ensures { IfOk result (IsAnyCopy self.now) }
    {
        Ok(match self {
            AnyInterner::String(interner) => AnyInterner::String(interner.try_copy()?),
            AnyInterner::Bucket(interner) => AnyInterner::Bucket(interner.try_copy()?),
            AnyInterner::Buffer(interner) => AnyInterner::Buffer(interner.try_copy()?),
        })
    }

    /// Reports whether the other interner has the same kind and the same texts in the same order.
    pub fn equals(&self, other: &AnyInterner) -> bool
        //~ ensures { result ≡ any_eq self.now other.now }
    {
        match (self, other) {
            (AnyInterner::String(one), AnyInterner::String(other)) => one == other,
            (AnyInterner::Bucket(one), AnyInterner::Bucket(other)) => one == other,
            (AnyInterner::Buffer(one), AnyInterner::Buffer(other)) => one == other,
            _ => false,
        }
    }

    /// Returns the JSON array of the texts.
    pub fn to_json(&self, alloc: Global) -> Result<Value, AllocError>
        //~ ensures { IfOk result (λ value. view value ≡ json_of_texts (texts_in self.now)) }
    {
        each!(self, interner => interner.to_json(alloc))
    }

    /// Makes an interner of this kind with this hasher from a JSON array of strings. Repeats add no text.
    pub fn from_json(
        alloc: Global,
        kind: Kind,
        value: &Value,
        hasher: ChosenHasher,
    ) -> Result<AnyInterner, JsonError>
        //~ ensures { ReadsAs kind (view value.now) result }
    {
        Ok(make!(
            kind,
            StringInterner::from_json_with_hasher(alloc, value, hasher)?
        ))
    }

    /// Makes an interner of this kind with this hasher from a JSON array of strings that all differ.
    pub fn from_json_exact(
        alloc: Global,
        kind: Kind,
        value: &Value,
        hasher: ChosenHasher,
    ) -> Result<AnyInterner, JsonError>
        //~ ensures { ReadsAsExactly kind (view value.now) result }
    {
        Ok(make!(
            kind,
            StringInterner::from_json_exact_with_hasher(alloc, value, hasher)?
        ))
    }
}
