//! Calls on an interner of one kind, which a caller chose when it was compiled.

//~ ghost use Rattle.std.specs.Prelude.{◌≡◌, IfSome, Some};
//~ ghost use Rattle.string_interner.specs.Interner.{Finds};
//~ ghost use Rattle.handles.specs.Any.{any_of, text_at};
//~ ghost use Rattle.handles.specs.Calls.{Answers, TellsFound};
//~ ghost use Rattle.handles.specs.OneKind.{FindsIn, InternsIn, ResolvesIn};
//~ ghost use Rattle.handles.specs.declared.kind.Kind.TheVariants as kind;

use crate::rt::prelude::*; use super::{AnyInterner, HashedInterner, status_given, symbol_found};
use crate::handles::status::{OK, Status, tell};
use crate::handles::text::Text;
use crate::erased::backend::{Backend, StringBackend};
use crate::erased::symbol::SymbolU32;

/// Returns the symbol of a text, if it is known.
#[inline(always)]
fn get_in<B: Backend<Symbol = SymbolU32>>(
    interner: &HashedInterner<B>,
    text: &str,
) -> Result<u32, Status>
    //~ ensures { TellsFound (Finds B.numbering interner.now.texts text.now) result }
{
    symbol_found(interner.get(text)).ok_or(Status::Nothing)
}

/// Returns the text at a symbol, if both ends of it are stored in four bytes, which leaves out the first text. `None` says
/// nothing: the caller then asks in another way.
#[inline(always)]
fn text_by_narrow_ends(
    interner: &HashedInterner<StringBackend<SymbolU32>>,
    symbol: u32,
) -> Option<&str>
    //~ ensures { IfSome result
    //~     (λ text. text_at (any_of kind.String interner.now) symbol ≡ Some text.now) }
{
    // Each text has a symbol, as the clause `holds` of this call says.
    let _ = interner.len();
    let (joined, ends) = interner.backend().as_parts();
    let (narrow, _) = ends.as_slices();
    let index = symbol as usize;
    if index == 0 || index >= narrow.len() {
        return None;
    }
    Some(unsafe { crate::unchecked::cut_unchecked(joined, narrow[index - 1] as usize..narrow[index] as usize) })
}

impl AnyInterner {
    /// Writes the text at a symbol of an interner of the kind `String`, and returns the code of the outcome.
    #[inline(always)]
    pub fn write_text_in_string<'a>(&'a self, symbol: u32, text: &mut Text<'a>) -> u32
        //~ ensures { Answers (ResolvesIn kind.String symbol self.now) result text.old text.new }
    {
        if let AnyInterner::String(interner) = self {
            if let Some(found) = text_by_narrow_ends(interner, symbol) {
                *text = Text {
                    bytes: found.as_bytes(),
                };
                return OK;
            }
        }
        self.write_text_by_lending(symbol, text)
    }

    /// Writes the text as `write_text_in_string` does, the longer way, which every symbol may take. Not inlined, so that the
    /// shorter way saves no registers.
    #[cold]
    #[inline(never)]
    fn write_text_by_lending<'a>(&'a self, symbol: u32, text: &mut Text<'a>) -> u32
        //~ ensures { Answers (ResolvesIn kind.String symbol self.now) result text.old text.new }
    {
        tell(self.resolve_in_string(symbol), text)
    }

    /// Returns the text at a symbol of an interner of the kind `String`.
    #[inline(always)]
    pub fn resolve_in_string<'a>(&'a self, symbol: u32) -> Result<Text<'a>, Status>
        //~ ensures { ResolvesIn kind.String symbol self.now result }
    {
        match self {
            AnyInterner::String(_) => self.lend(symbol),
            _ => Err(Status::BadKind),
        }
    }

    /// Returns the symbol of a text in an interner of the kind `String`, if it is known.
    #[inline(always)]
    pub fn get_in_string(&self, text: &str) -> Result<u32, Status>
        //~ ensures { FindsIn kind.String text.now self.now result }
    {
        match self {
            AnyInterner::String(interner) => get_in(interner, text),
            _ => Err(Status::BadKind),
        }
    }

    /// Returns the symbol of a text in an interner of the kind `String`. Appends a new text.
    #[inline(always)]
    pub fn intern_in_string(&mut self, text: &str) -> Result<u32, Status>
        //~ ensures { InternsIn kind.String text.now self.old result self.new }
    {
        match self {
            AnyInterner::String(interner) => status_given(interner.get_or_intern(text)),
            _ => Err(Status::BadKind),
        }
    }

    /// Returns the text at a symbol of an interner of the kind `Bucket`.
    #[inline(always)]
    pub fn resolve_in_bucket<'a>(&'a self, symbol: u32) -> Result<Text<'a>, Status>
        //~ ensures { ResolvesIn kind.Bucket symbol self.now result }
    {
        match self {
            AnyInterner::Bucket(_) => self.lend(symbol),
            _ => Err(Status::BadKind),
        }
    }

    /// Returns the symbol of a text in an interner of the kind `Bucket`, if it is known.
    #[inline(always)]
    pub fn get_in_bucket(&self, text: &str) -> Result<u32, Status>
        //~ ensures { FindsIn kind.Bucket text.now self.now result }
    {
        match self {
            AnyInterner::Bucket(interner) => get_in(interner, text),
            _ => Err(Status::BadKind),
        }
    }

    /// Returns the symbol of a text in an interner of the kind `Bucket`. Appends a new text.
    #[inline(always)]
    pub fn intern_in_bucket(&mut self, text: &str) -> Result<u32, Status>
        //~ ensures { InternsIn kind.Bucket text.now self.old result self.new }
    {
        match self {
            AnyInterner::Bucket(interner) => status_given(interner.get_or_intern(text)),
            _ => Err(Status::BadKind),
        }
    }

    /// Returns the text at a symbol of an interner of the kind `Buffer`.
    #[inline(always)]
    pub fn resolve_in_buffer<'a>(&'a self, symbol: u32) -> Result<Text<'a>, Status>
        //~ ensures { ResolvesIn kind.Buffer symbol self.now result }
    {
        match self {
            AnyInterner::Buffer(_) => self.lend(symbol),
            _ => Err(Status::BadKind),
        }
    }

    /// Returns the symbol of a text in an interner of the kind `Buffer`, if it is known.
    #[inline(always)]
    pub fn get_in_buffer(&self, text: &str) -> Result<u32, Status>
        //~ ensures { FindsIn kind.Buffer text.now self.now result }
    {
        match self {
            AnyInterner::Buffer(interner) => get_in(interner, text),
            _ => Err(Status::BadKind),
        }
    }

    /// Returns the symbol of a text in an interner of the kind `Buffer`. Appends a new text.
    #[inline(always)]
    pub fn intern_in_buffer(&mut self, text: &str) -> Result<u32, Status>
        //~ ensures { InternsIn kind.Buffer text.now self.old result self.new }
    {
        match self {
            AnyInterner::Buffer(interner) => status_given(interner.get_or_intern(text)),
            _ => Err(Status::BadKind),
        }
    }
}
