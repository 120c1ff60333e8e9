//! What the lock of a shard guards beside the bytes of its texts: the proved index of them.

use super::index::look_under_lock;
use super::memory::{items_of, Entry, Room, Store};
use super::shared::{Shared, Taken};
use crate::erased::backend as proved;
use crate::erased::dedup::index::WordIndex;
use crate::erased::dedup::layout::Layout as _;
use crate::erased::dedup::probe::Vacancy;
use crate::erased::dedup::shown::words_of;
use crate::erased::dedup::words::WordSlots;
use crate::erased::dedup::TextIndex;
use crate::erased::interner::given::Given;
use crate::erased::interner::new_text::intern_coded;
use crate::erased::symbol::{Symbol as _, SymbolU32};
use crate::error::InternError;
use crate::rt::alloc::Global;
#[cfg(test)]
use crate::rt::words::Words;
use crate::symbol::Symbol;
use core::hash::BuildHasher;

/// The index of distinct texts whose hash codes choose this shard. It alone says whether a text is new. There is none before the first.
pub(super) struct Shard {
    index: Option<WordIndex<SymbolU32>>,
}

/// The texts of a shard as the proved code takes them: under the numbers that they have among all texts.
struct List<'a, S, H> {
    shared: &'a Shared<S, H>,
    store: Store<'a>,
    appended: Option<Appended<'a, S>>,
}

/// A text that was appended. Threads are shown it next.
struct Appended<'a, S> {
    symbol: S,
    entry: Entry<'a>,
    room: Room<'a>,
}

/// A text that has a number now, and its symbol if it is new.
pub(super) struct Interned<S> {
    pub(super) number: u32,
    symbol: Option<S>,
}

impl<S: Symbol> Interned<S> {
    /// Returns the symbol of the text.
    #[inline(always)]
    pub(super) fn symbol<H: BuildHasher>(self, shared: &Shared<S, H>) -> Result<S, InternError> {
        match self.symbol {
            Some(symbol) => Ok(symbol),
            None => shared.symbol_of(self.number),
        }
    }
}

/// An index with fewer slots grows to four times as many: to make it anew costs more than the memory.
const FEW_SLOTS: usize = 512;

/// Returns how many slots an index has when one entry more has come.
#[inline]
fn next_slots(index: &WordIndex<SymbolU32>) -> usize {
    let slots = index.slots();
    match WordSlots::<SymbolU32>::has_room(slots, TextIndex::len(index)) {
        true => slots,
        false => slots.saturating_mul(2).max(8),
    }
}

/// Returns an index with the texts of this one and four times as many slots, as the proved index makes one of twice as many.
#[cold]
fn grow_by_four(
    index: &WordIndex<SymbolU32>,
    store: &mut Store<'_>,
) -> Result<WordIndex<SymbolU32>, InternError> {
    let slots = 4 * index.slots();
    store.pay(slots)?;
    // Three quarters of the slots may be filled.
    let mut larger = WordIndex::with_capacity(Global, slots / 4 * 3)?;
    for (number, code) in items_of(words_of(index)) {
        let symbol = SymbolU32::try_from_usize(number as usize).expect("it has one");
        // The texts are distinct, and there is room for all.
        TextIndex::insert_at(&mut larger, Vacancy::by_code(code.into()), symbol);
    }
    Ok(larger)
}

impl Shard {
    pub(super) const fn new() -> Self {
        Shard { index: None }
    }

    /// Makes room for so many texts, before the first one comes.
    pub(super) fn make_first_room(
        &mut self,
        texts: usize,
        mut store: Store<'_>,
    ) -> Result<(), InternError> {
        let index = WordIndex::with_capacity(Global, texts)?;
        store.pay(index.slots())?;
        self.index = Some(index);
        Ok(())
    }

    /// Returns the number of a text with this code. Appends a text that is not known.
    #[inline(always)]
    pub(super) fn intern<S: Symbol, H: BuildHasher>(
        &mut self,
        shared: &Shared<S, H>,
        mut store: Store<'_>,
        code: u64,
        given: Given<'_>,
    ) -> Result<Interned<S>, InternError> {
        let index = self.index.get_or_insert_with(|| TextIndex::new(Global));
        let (slots, next) = (index.slots(), next_slots(index));
        if next > slots {
            // A full index grows for a new text that a symbol is left for. All that came is shown before the lock is given back.
            if let Some(number) = look_under_lock(&store, code, given.text()) {
                return Ok(Interned {
                    number,
                    symbol: None,
                });
            }
            shared.next_symbol()?;
            if (1..FEW_SLOTS).contains(&slots) {
                *index = grow_by_four(index, &mut store)?;
            } else {
                store.pay(next)?;
            }
        }
        let mut list = List {
            shared,
            store,
            appended: None,
        };
        let known = intern_coded(&mut list, &shared.hasher, index, given, code, None)?;
        let number = known.to_usize() as u32;
        let symbol = list.appended.take().map(|appended| {
            list.store.show(words_of(index));
            appended.entry.publish(appended.room);
            appended.symbol
        });
        Ok(Interned { number, symbol })
    }
}

#[cfg(test)]
impl Shard {
    /// Puts a number with this code into the index, and returns the words.
    pub(super) fn insert(&mut self, code: u64, number: u32) -> &Words {
        let index = self
            .index
            .get_or_insert_with(|| WordIndex::with_capacity(Global, 6).unwrap());
        let symbol = SymbolU32::try_from_usize(number as usize).unwrap();
        TextIndex::insert_at(index, Vacancy::by_code(code), symbol);
        words_of(index)
    }
}

impl<'a, S: Symbol, H: BuildHasher> List<'a, S, H> {
    /// Appends the text of an entry, for which a number was taken. All that may be refused came before that.
    #[inline(always)]
    fn append(&mut self, (entry, taken): (Entry<'a>, Taken<'a, S>)) -> SymbolU32 {
        self.appended = Some(Appended {
            symbol: taken.symbol,
            entry,
            room: taken.room,
        });
        SymbolU32::try_from_usize(taken.number as usize).expect("it is less than the greatest")
    }
}

impl<S: Symbol, H: BuildHasher> proved::Store for List<'_, S, H> {
    type Symbol = SymbolU32;

    #[inline(always)]
    fn is_full(&self) -> bool {
        self.shared.next_symbol().is_err()
    }

    #[inline(always)]
    fn intern(&mut self, text: &str) -> Result<SymbolU32, proved::InternError> {
        let (shared, texts) = (self.shared, self.store.texts());
        let copied = self.store.copy(text, || shared.take_number(texts))?;
        Ok(self.append(copied))
    }

    #[inline(always)]
    fn intern_static(&mut self, text: &'static str) -> Result<SymbolU32, proved::InternError> {
        let (shared, texts) = (self.shared, self.store.texts());
        let kept = self.store.keep(text, || shared.take_number(texts))?;
        Ok(self.append(kept))
    }

    #[inline(always)]
    fn resolve(&self, symbol: SymbolU32) -> Option<&str> {
        self.store.texts().get(symbol.to_usize() as u32)
    }

    #[inline(always)]
    fn resolve_unchecked(&self, symbol: SymbolU32) -> &str {
        self.resolve(symbol).expect("each text was shown")
    }

    // No one asks a shard for it.
    fn shrink_to_fit(&mut self) {}
}
