//! Nested scopes over an interner: leaving a scope drops the texts that were declared in it.
//!
//! This is for compilers and interpreters whose names live as long as a block. An inner scope shares the names of the
//! outer ones. If inner names should hide outer ones, use an interner for each open block instead.

//~ ghost use Rattle.std.specs.Prelude.{◌≡◌, ◌+◌, ◌↔◌, [], ◌∷◌, ◌++◌, length, None, IsTrue, IsSome, OnOk, OnErr};
//~ ghost use Rattle.std.specs.Option.{option_copied};
//~ ghost use Rattle.string_interner.specs.Text.{first};
//~ ghost use Rattle.string_interner.specs.Iter.{iter_over};
//~ ghost use Rattle.string_interner.specs.Interner.{IsInternerList, Finds, InternsInto, KeepsMemory, Resolves};
//~ ghost use Rattle.string_interner.specs.StandsFor.{KeepsSymbols};
//~ ghost use Rattle.string_interner.specs.Scopes.{layers, joined_layers, as_interner, Leaves, LayerStep, LeavingGivesBack};

use crate::rt::prelude::*; use crate::erased::backend::{Backend, InternError, Iter, Store};
use crate::erased::dedup::{DefaultIndex, TextIndex};
use crate::erased::hash::{DefaultHashBuilder, TextHasher};
use crate::erased::interner::StringInterner;
use crate::rt::alloc::{AllocError, Global};
use crate::rt::marker::Model;

/// An interner whose texts are declared in nested scopes.
///
/// `enter` opens a scope, and `leave` closes it and drops the texts declared since. Texts that were there before keep
/// their symbols; declaring one of them again in an inner scope returns the symbol that it has. After `enter`,
/// `declare("a")` and `leave`, `find("a")` is `None`, unless `a` was there at `enter`.
//~ #[derive(Drop)]
pub struct Scopes<
    B: Backend,
    H: TextHasher = DefaultHashBuilder,
    I: TextIndex<B::Symbol> = DefaultIndex<<B as Store>::Symbol>,
> {
    interner: StringInterner<B, H, I>,
    /// The number of texts when each open scope was entered, the outermost scope first.
    starts: Vec<usize>,
}

//~ /// Contracts see a stack of layers, one for each open scope above the texts that are in no scope, and the interner's
//~ /// buckets, room and slot count.
//~ impl<B: Backend, H: TextHasher, I: TextIndex<B::Symbol>> Model for Scopes<B, H, I> {
//~     ghost use Rattle.std.specs.Prelude.{length, reverse};
//~     ghost use Rattle.string_interner.specs.Scopes.{ScopesContents, top_layer, layers_below, AreStarts};
//~
//~     ghost Value = { ScopesContents };
//~
//~     ghost view = { λ s. record {
//~       top = top_layer (reverse s.starts.items) s.interner.texts;
//~       below = layers_below (reverse s.starts.items) s.interner.texts;
//~       buckets = s.interner.buckets;
//~       room = s.interner.room;
//~       slot_count = s.interner.slot_count;
//~     } };
//~
//~     ghost invariant = { λ s. AreStarts (reverse s.starts.items) (length s.interner.texts) };
//~ }

impl<B: Backend, H: TextHasher, I: TextIndex<B::Symbol>> Scopes<B, H, I> {
    /// Wraps an interner, with no open scope: all its texts are in the bottom layer. Allocates nothing.
    pub fn new(alloc: Global, interner: StringInterner<B, H, I>) -> Self
        //~ ensures layers { layers result ≡ interner.texts ∷ [] }
        //~ ensures interner { as_interner result ≡ interner }
    {
        Scopes {
            interner,
            starts: Vec::new(alloc),
        }
    }

    /// Opens a scope, with no texts yet.
    ///
    /// Returns `Err` only if memory for one more scope cannot be allocated. Nothing changes then.
    pub fn enter(&mut self) -> Result<(), AllocError>
        //~ ensures layers { OnOk result (layers self.new ≡ [] ∷ layers self.old) }
        //~ ensures interner { as_interner self.new ≡ as_interner self.old }
        //~ ensures err { OnErr result (self.new ≡ self.old) }
        //~ ensures step { LayerStep (layers self.old) (layers self.new) }
    {
        self.starts.push(self.interner.len())?;
        Ok(())
    }

    /// Closes the innermost open scope and drops the texts declared in it: the list and its symbols are what they were
    /// at the matching `enter`. Returns whether there was an open scope; if there was none, nothing changes.
    ///
    /// Allocates and releases nothing. Costs what `StringInterner::truncate` costs.
    pub fn leave(&mut self) -> bool
        //~ ensures layers { Leaves (layers self.old) result (layers self.new) }
        //~ ensures none { self.old.below ≡ [] → self.new ≡ self.old }
        //~ ensures step { LayerStep (layers self.old) (layers self.new) }
        //~ ensures memory { KeepsMemory (as_interner self.old) (as_interner self.new) }
        //~ ensures keeps { KeepsSymbols B.numbering (joined_layers self.old.below)
        //~     (joined_layers (layers self.new)) }
    {
        match self.starts.pop() {
            Some(start) => {
                self.interner.truncate(start);
                true
            }
            None => false,
        }
    }

    /// Returns the symbol of a text, which is looked up in all layers. A new text is appended to the top one.
    ///
    /// Fails as `StringInterner::get_or_intern` does. No layer changes then.
    pub fn declare(&mut self, text: &str) -> Result<B::Symbol, InternError>
        //~ ensures interns { InternsInto B.numbering I.rule (as_interner self.old) text.now result
        //~     (as_interner self.new) }

        // No layer but the top one changes, and that only by a new text at its end.
        //~ ensures below { self.new.below ≡ self.old.below }
        //~ ensures new { first (joined_layers (layers self.old)) text.now ≡ None
        //~     → OnOk result (self.new.top ≡ self.old.top ++ text.now ∷ []) }
        //~ ensures known { IsSome (first (joined_layers (layers self.old)) text.now)
        //~     → self.new ≡ self.old }
        //~ ensures err { OnErr result (layers self.new ≡ layers self.old) }
        //~ ensures step { LayerStep (layers self.old) (layers self.new) }
    {
        self.interner.get_or_intern(text)
    }

    /// Returns the symbol of a text, which is looked up in all layers: `Some` exactly if the text is known. Allocates
    /// nothing.
    pub fn find(&self, text: &str) -> Option<B::Symbol>
        //~ ensures { Finds B.numbering (joined_layers (layers self.now)) text.now result }
    {
        self.interner.get(text)
    }

    /// Returns the number of open scopes: one less than there are layers.
    pub fn depth(&self) -> usize
        //~ ensures { length (layers self.now) ≡ result + 1 }
    {
        self.starts.len()
    }

    /// Returns what the backend reads at a symbol's number, for any symbol. For the symbol of a text in any layer this
    /// is that text.
    pub fn resolve(&self, symbol: B::Symbol) -> Option<&str>
        //~ ensures { Resolves B.numbering (joined_layers (layers self.now)) symbol
        //~     (option_copied result) }
    {
        self.interner().resolve(symbol)
    }

    /// Returns the number of texts in all layers.
    pub fn len(&self) -> usize
        //~ ensures value { result ≡ length (joined_layers (layers self.now)) }

        // What holds of all scopes.
        //~ ensures texts { IsInternerList B.numbering (joined_layers (layers self.now)) }
    {
        self.interner().len()
    }

    /// Reports whether there is no text in any layer.
    pub fn is_empty(&self) -> bool
        //~ ensures { IsTrue result ↔ (joined_layers (layers self.now) ≡ []) }
    {
        self.interner().is_empty()
    }

    /// Iterates over the texts of all layers in insertion order, from the bottom layer to the top one, each with its
    /// symbol.
    pub fn iter(&self) -> Iter<'_, B>
        //~ ensures { result ≡ iter_over (joined_layers (layers self.now)) }
    {
        self.interner().iter()
    }

    /// Returns the interner, whose list is all layers joined.
    pub fn interner(&self) -> &StringInterner<B, H, I>
        //~ ensures { result.now ≡ as_interner self.now }
    {
        &self.interner
    }
}

/// Does nothing. Its clause is the law of leaving: whatever calls come between an `enter` and the matching `leave`, the
/// layers are then what they were before the `enter`.
pub fn scope_law()
    //~ ensures { LeavingGivesBack }
{}
