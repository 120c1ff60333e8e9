//! Looking for a text in the words of a table while another thread adds to it.
//!
//! A thread that interns has a [`WordIndex`] behind a lock, which alone says whether a text is new. Other threads look texts up in
//! its words without the lock, by [`glance`] and [`look`]. They read word by word, so what one read shows may be older than what
//! the next one does. Each number that they find is compared by its text. No insertion writes a filled slot (clause `kept` of
//! `Table::insert_at`), so words that a thread has seen stay as long as the table does not grow.

//~ ghost use Rattle.std.specs.Prelude.{◌≡◌, ◌<◌, ℕ, List, length, slice_index_or, IfNone, IfSome, IsSome, IsTrue, Option, Some, None, false};
//~ ghost use Rattle.string_interner.specs.Text.{Text};
//~ ghost use Rattle.string_interner.specs.LoadFactor.{IsSlotCount};
//~ ghost use Rattle.string_interner.specs.Index.{has_text, look_up};
//~ ghost use Rattle.string_interner.specs.Tagged.{stored_code};
//~ ghost use Rattle.string_interner.specs.Words.{word_layout};
//~ ghost use Rattle.string_interner.specs.Shown.{AreSure, IsShown, number_slots, numbers_in};

use crate::rt::prelude::*; use crate::erased::dedup::index::WordIndex;
use crate::erased::dedup::probe::{home_of, slot_after};
use crate::erased::dedup::tagged::tags::stored_code;
use crate::erased::dedup::words::item_of;
use crate::erased::dedup::words::list::Words;
use crate::erased::equal_texts::texts_are_equal;
use crate::erased::symbol::SymbolU32;

/// Words that another thread may be writing, read one at a time.
pub trait ShownWords: Sized {
    //~ /// The words that the reader is sure of. Those of them that are not 0 stay as they are.
    //~ ghost sure: { Self → List ℕ };

    /// Returns how many words there are.
    fn len(&self) -> usize;
        //~ ensures value { result ≡ length (sure self.now) }
        //~ ensures count { IsSlotCount result };

    /// Returns a word as it is now. One that is 0 among those that the reader is sure of may be any other by now.
    fn load(&self, at: usize) -> u64;
        //~ requires { at < length (sure self.now) }
        //~ ensures { 0 < slice_index_or (sure self.now) at 0
        //~     → result ≡ slice_index_or (sure self.now) at 0 };
}

/// Texts that another thread may be adding, each under a number that it keeps.
pub trait ShownTexts: Sized {
    //~ /// The text of a number, which it may not have yet.
    //~ ghost text_of: { Self → ℕ → Option Text };

    //~ /// The reader is sure that the number has its text by now.
    //~ ghost is_sure: { Self → ℕ → Type 0 };

    /// Returns the text of a number, if it has it by now.
    fn get(&self, number: SymbolU32) -> Option<&str>;
        //~ ensures text { IfSome result (λ text. text_of self.now number ≡ Some text.now) }
        //~ ensures sure { is_sure self.now number → IsSome result };
}

/// Lends the words of an index to threads that look texts up in them. The second clause is what [`look`] needs to find each.
pub fn words_of(index: &WordIndex<SymbolU32>) -> &Words
    //~ ensures words { number_slots result.now ≡ index.now.slots }
    //~ ensures shown { (text_of : ℕ → Option Text) (code : Text → ℕ) (text : Text)
    //~     → word_layout.fits text_of code index.now.slots
    //~     → IsShown text_of result.now (code text) text }
{
    index.as_slots().words()
}

/// Reports whether a text with this code has a number, beside which a slot has this stored code.
#[inline(always)]
fn shows<T: ShownTexts>(texts: &T, number: SymbolU32, stored: u32, code: u64, text: &str) -> bool
    //~ ensures found { IsTrue result → T.text_of texts.now number ≡ Some text.now }
    //~ ensures missed { result ≡ false → T.is_sure texts.now number → stored ≡ stored_code code
    //~     → has_text (T.text_of texts.now) text.now number ≡ false }
{
    if stored != stored_code(code) {
        return false;
    }
    match texts.get(number) {
        Some(found) => texts_are_equal(found, text),
        None => false,
    }
}

/// Looks for a text with this code in the first two words from its home on, where most texts are, and returns its number.
///
/// Whatever the words show, a number that is returned has the text. If none is, `look` may find one.
#[inline(always)]
pub fn glance<W: ShownWords, T: ShownTexts>(
    words: &W,
    texts: &T,
    code: u64,
    text: &str,
) -> Option<SymbolU32>
    //~ ensures { IfSome result (λ number. T.text_of texts.now number ≡ Some text.now) }
{
    let count = words.len();
    if count == 0 {
        return None;
    }
    let home = home_of(code, count);
    // Both words are read, and one is chosen by its code, so that nothing branches by where the text is.
    let first = words.load(home);
    let second = words.load(slot_after(home, count));
    let is_first = first / 0x1_0000_0000 == code % 0x1_0000_0000;
    let item = item_of::<SymbolU32>(if is_first { first } else { second })?;
    if shows(texts, item.symbol, item.code, code, text) {
        Some(item.symbol)
    } else {
        None
    }
}

/// Looks for a text with this code in words from its home on, up to the first that is 0, and returns its number.
///
/// Whatever the words show, a number that is returned has the text. If none is, no number has it in the table whose words the
/// reader was sure of, if it was sure of their texts, too.
pub fn look<W: ShownWords, T: ShownTexts>(
    words: &W,
    texts: &T,
    code: u64,
    text: &str,
) -> Option<SymbolU32>
    //~ ensures found { IfSome result (λ number. T.text_of texts.now number ≡ Some text.now) }
    //~ ensures absent { IfNone result (IsShown (T.text_of texts.now) (W.sure words.now) code text.now
    //~     → AreSure (T.is_sure texts.now) (W.sure words.now)
    //~     → look_up (T.text_of texts.now) (numbers_in (W.sure words.now)) text.now ≡ None) }
{
    let count = words.len();
    if count == 0 {
        return None;
    }
    let mut at = home_of(code, count);
    for _step in 0..count {
        match item_of::<SymbolU32>(words.load(at)) {
            None => return None,
            Some(item) if shows(texts, item.symbol, item.code, code, text) => {
                return Some(item.symbol);
            }
            Some(_) => at = slot_after(at, count),
        }
    }
    // As many words as there are were passed, which cannot be, unless one that was 0 was written meanwhile.
    None
}
