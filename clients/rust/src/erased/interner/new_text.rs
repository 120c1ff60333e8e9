//! Interning one text whose code is known: what a new one needs, and in which order.

//~ ghost use Rattle.std.specs.Prelude.{◌≡◌, IfSome};
//~ ghost use Rattle.string_interner.specs.StandsFor.{StandsFor};
//~ ghost use Rattle.string_interner.specs.Given.{given_text};
//~ ghost use Rattle.string_interner.specs.Interner.{InternsInto, IsSoundIndex, contents_in};

use crate::rt::prelude::*; use super::given::Given;
use crate::erased::backend::{InternError, Store};
use crate::erased::dedup::{Entry, TextIndex};
use crate::erased::hash::TextHasher;

/// Returns the symbol of a text with this code, and appends the text if it is new. If its symbol is `known`, it is not
/// looked up.
#[inline(always)]
pub fn intern_coded<B: Store, H: TextHasher, I: TextIndex<B::Symbol>>(
    backend: &mut B,
    hasher: &H,
    index: &mut I,
    given: Given<'_>,
    code: u64,
    known: Option<B::Symbol>,
) -> Result<B::Symbol, InternError>
    //~ requires sound { IsSoundIndex B.numbering I.indexes (H.code hasher.now) I.entries
    //~     index.old (B.texts backend.old) }
    //~ requires code { code ≡ H.code hasher.now (given_text given) }
    //~ requires known { IfSome known (λ symbol.
    //~     StandsFor B.numbering (B.texts backend.old) symbol (given_text given)) }
    //~ ensures interns { InternsInto B.numbering I.rule
    //~     (contents_in B.texts B.buckets B.room I.slots backend.old index.old)
    //~     (given_text given.entry) result
    //~     (contents_in B.texts B.buckets B.room I.slots backend.new index.new) }
    //~ ensures sound { IsSoundIndex B.numbering I.indexes (H.code hasher.now) I.entries
    //~     index.new (B.texts backend.new) }
{
    if let Some(symbol) = known {
        return Ok(symbol);
    }
    let vacancy = match index.entry(code, backend, given.text()) {
        Entry::Occupied(symbol) => return Ok(symbol),
        Entry::Vacant(vacancy) => vacancy,
    };
    // Asks for the symbol before it allocates anything.
    if backend.is_full() {
        return Err(InternError::NoSymbol);
    }
    index.reserve_one(hasher, backend)?;
    let symbol = given.store_in(backend)?;
    index.insert_at(vacancy, symbol);
    Ok(symbol)
}
