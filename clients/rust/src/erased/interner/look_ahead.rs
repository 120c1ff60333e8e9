//! Looking texts up together before they are interned, so that they wait for memory at the same time.
//!
//! It is done 32 texts at a time, in an interner that has 2^15 texts or more. If fewer than a quarter of them are found, the next
//! 480 are interned one by one.
//!
//! Four passes go over the 32 texts: hash each text, ask the index for its guess, resolve that symbol, and compare its text. Within
//! a pass no text needs what another one loads.

//~ ghost use Rattle.std.specs.Prelude.{◌≡◌, ℕ, ◌<◌, ◌≤◌, length, slice_index_or, IfSome, Option, option_and_then};
//~ ghost use Rattle.std.specs.Borrow.{Bor};
//~ ghost use Rattle.string_interner.specs.Text.{Text};
//~ ghost use Rattle.string_interner.specs.Entry.{entry_text};
//~ ghost use Rattle.string_interner.specs.Interner.{IsInternerList, IsSoundIndex};
//~ ghost use Rattle.string_interner.specs.InternAll.{AreCodes, AreGuesses, AreKnown, AreResolved, IsGuess, IsResolved, LooksAhead, LooksAtNone};
//~ ghost use Rattle.string_interner.specs.StandsFor.{StandsFor};

use crate::rt::prelude::*; use crate::erased::backend::Store;
use crate::erased::dedup::TextIndex;
use crate::erased::hash::TextHasher;
use crate::erased::symbol::Symbol;

/// From so many texts on it pays to look texts up together. An interner of fewer is taken to fit the processor's cache, where a block
/// takes longer than its texts one by one. What adds work of its own to each block begins at a multiple of this: at twice as many
/// texts where the symbols of a block take a second pass, and at four times as many where a known text takes one comparison alone.
pub const FEWEST_FOR_BLOCKS: usize = 1 << 15;

/// How many texts are looked up together at most.
pub const BLOCK_LEN: usize = 32;

/// So many texts after a block of which few were found are looked up one by one, which makes the cost of trying blocks small.
const TEXTS_ALONE: usize = 15 * BLOCK_LEN;

/// What was found of the texts of a slice before it is their turn.
///
/// It has numbers of symbols, because an array of a symbol type would have a size that only the caller knows.
//~ #[derive(Drop)]
pub struct Ahead {
    /// The texts from this index to before `end` were looked up together.
    start: usize,
    end: usize,
    /// At this index it is time to look further.
    next: usize,
    /// The codes of these texts.
    codes: [u64; BLOCK_LEN],
    /// The numbers of their symbols, if they were found.
    known: [Option<usize>; BLOCK_LEN],
}

impl Ahead {
    /// Makes one for which it is time to look at once.
    #[inline(always)]
    pub fn new() -> Ahead
        //~ ensures { LooksAtNone result }
    {
        Ahead {
            start: 0,
            end: 0,
            next: 0,
            codes: [0; BLOCK_LEN],
            known: [None; BLOCK_LEN],
        }
    }

    /// Returns how many texts behind a slice of so many are best interned one by one.
    #[inline(always)]
    pub fn alone_after(&self, texts: usize) -> usize {
        self.next.saturating_sub(texts)
    }

    /// Returns the code of the text whose turn it is, and its symbol if it was found. Looks further first if it is time to.
    #[inline(always)]
    pub fn find<B: Store, H: TextHasher, I: TextIndex<B::Symbol>>(
        &mut self,
        backend: &B,
        hasher: &H,
        index: &I,
        texts: &[&str],
        at: usize,
    ) -> (u64, Option<B::Symbol>)
        //~ requires sound { IsSoundIndex B.numbering I.indexes (H.code hasher.now) I.entries
        //~     index.now (B.texts backend.now) }
        //~ requires within { at < length texts.now }
        //~ requires ahead { LooksAhead (H.code hasher.now) B.Symbol.symbol_of B.numbering
        //~     (B.texts backend.now) texts.now at self.old }
        //~ ensures ahead { LooksAhead (H.code hasher.now) B.Symbol.symbol_of B.numbering
        //~     (B.texts backend.now) texts.now at self.new }
        //~ ensures code { (text : Bor Text)
        //~     → result.0 ≡ H.code hasher.now (slice_index_or texts.now at text).now }
        //~ ensures known { (text : Bor Text) → IfSome result.1 (λ symbol. StandsFor B.numbering
        //~     (B.texts backend.now) symbol (slice_index_or texts.now at text).now) }
    {
        if at == self.next {
            self.look_further(backend, hasher, index, texts, at);
        }
        if at < self.end {
            let found = symbol_with(self.known[at - self.start]);
            return (self.codes[at - self.start], found);
        }
        (hasher.hash_text(texts[at]), None)
    }

    /// Looks up the texts of a block from here on, unless they are better interned one by one.
    ///
    /// It is a call of its own, so that the other texts take no longer than in `get_or_intern`.
    #[inline(never)]
    fn look_further<B: Store, H: TextHasher, I: TextIndex<B::Symbol>>(
        &mut self,
        backend: &B,
        hasher: &H,
        index: &I,
        texts: &[&str],
        at: usize,
    )
        //~ requires sound { IsSoundIndex B.numbering I.indexes (H.code hasher.now) I.entries
        //~     index.now (B.texts backend.now) }
        //~ requires within { at < length texts.now }
        //~ ensures { LooksAhead (H.code hasher.now) B.Symbol.symbol_of B.numbering
        //~     (B.texts backend.now) texts.now at self.new }
    {
        self.start = at;
        self.end = at;
        if index.len() < FEWEST_FOR_BLOCKS {
            self.next = at.saturating_add(TEXTS_ALONE);
            return;
        }
        self.end = texts.len().min(at.saturating_add(BLOCK_LEN));
        let count = self.end - at;
        let mut codes = [0; BLOCK_LEN];
        let alone = look_for(
            backend,
            hasher,
            index,
            &texts[at..self.end],
            &mut codes[..count],
            &mut self.known[..count],
        );
        self.codes = codes;
        self.next = self.end.saturating_add(alone);
    }
}

/// Looks for the texts of a block: stores their codes and the numbers of the symbols that it finds, so that they wait for memory
/// together. A text may be known although no number is stored.
///
/// Returns how many texts are best looked up one by one before the next block.
#[inline(always)]
pub fn look_for<B: Store, H: TextHasher, I: TextIndex<B::Symbol>>(
    backend: &B,
    hasher: &H,
    index: &I,
    texts: &[&str],
    codes: &mut [u64],
    known: &mut [Option<usize>],
) -> usize
    //~ requires sound { IsSoundIndex B.numbering I.indexes (H.code hasher.now) I.entries
    //~     index.now (B.texts backend.now) }
    //~ requires few { length texts.now ≤ 32 }
    //~ requires codes_count { length codes.old ≡ length texts.now }
    //~ requires known_count { length known.old ≡ length texts.now }
    //~ ensures codes_count { length codes.new ≡ length codes.old }
    //~ ensures codes { AreCodes (H.code hasher.now) texts.now codes.new }
    //~ ensures known_count { length known.new ≡ length known.old }
    //~ ensures known { AreKnown B.Symbol.symbol_of B.numbering (B.texts backend.now) texts.now
    //~     known.new }
{
    hash_each(hasher, texts, codes);
    guess_each(index, backend, codes, known);
    check_each(backend, texts, known);
    texts_alone(known)
}

/// Stores the code of each text.
#[inline(always)]
fn hash_each<H: TextHasher>(hasher: &H, texts: &[&str], codes: &mut [u64])
    //~ requires { length codes.old ≡ length texts.now }
    //~ ensures count { length codes.new ≡ length codes.old }
    //~ ensures codes { AreCodes (H.code hasher.now) texts.now codes.new }
{
    for (at, text) in texts.iter().enumerate() {
        codes[at] = hasher.hash_text(text);
    }
}

/// Stores the number of the symbol that the index guesses for each code. Reads no text.
#[inline(always)]
fn guess_each<B: Store, I: TextIndex<B::Symbol>>(
    index: &I,
    backend: &B,
    codes: &[u64],
    guesses: &mut [Option<usize>],
)
    //~ requires count { length guesses.old ≡ length codes.now }
    //~ requires indexed { (of : Text → ℕ)
    //~     × I.indexes index.now (entry_text B.numbering (B.texts backend.now)) of }
    //~ ensures count { length guesses.new ≡ length guesses.old }
    //~ ensures guesses { AreGuesses B.Symbol.symbol_of
    //~     (entry_text B.numbering (B.texts backend.now)) guesses.new }
{
    for (at, code) in codes.iter().enumerate() {
        guesses[at] = guess_number(index, backend, *code);
    }
}

/// Returns how many texts are looked up one by one after a block of which this is known.
#[inline(always)]
fn texts_alone(known: &[Option<usize>]) -> usize {
    let found = known.iter().filter(|number| number.is_some()).count();
    // If fewer are found, the block takes longer than its texts one by one, since the others are then looked up again. A block is
    // short if a list of symbols has room for no more.
    if found < known.len() / 4 {
        TEXTS_ALONE
    } else {
        0
    }
}

/// Returns the number of the symbol that the index guesses for a code.
#[inline(always)]
fn guess_number<B: Store, I: TextIndex<B::Symbol>>(
    index: &I,
    backend: &B,
    code: u64,
) -> Option<usize>
    //~ requires { (of : Text → ℕ)
    //~     × I.indexes index.now (entry_text B.numbering (B.texts backend.now)) of }
    //~ ensures { IsGuess B.Symbol.symbol_of (entry_text B.numbering (B.texts backend.now)) result }
{
    let Some(symbol) = index.guess(code, backend) else {
        return None;
    };
    Some(symbol.to_usize())
}

/// Keeps the guess of each text if it is right, and else sets it to `None`.
///
/// All guesses are resolved before the first text is compared, because a text can be read only once its address is loaded.
#[inline(always)]
fn check_each<B: Store>(backend: &B, texts: &[&str], guesses: &mut [Option<usize>])
    //~ requires few { length texts.now ≤ 32 }
    //~ requires count { length guesses.old ≡ length texts.now }
    //~ requires texts { IsInternerList B.numbering (B.texts backend.now) }
    //~ requires guesses { AreGuesses B.Symbol.symbol_of
    //~     (entry_text B.numbering (B.texts backend.now)) guesses.old }
    //~ ensures count { length guesses.new ≡ length guesses.old }
    //~ ensures known { AreKnown B.Symbol.symbol_of B.numbering (B.texts backend.now) texts.now
    //~     guesses.new }
{
    let mut found = [""; BLOCK_LEN];
    let found = &mut found[..texts.len()];
    resolve_each(backend, guesses, found);
    for (at, text) in texts.iter().enumerate() {
        if found[at] != *text {
            guesses[at] = None;
        }
    }
}

/// Stores the text of the symbol of each guess, or the empty text if there is none. Compares nothing.
#[inline(always)]
fn resolve_each<'b, B: Store>(backend: &'b B, guesses: &[Option<usize>], found: &mut [&'b str])
    //~ requires count { length found.old ≡ length guesses.now }
    //~ requires texts { IsInternerList B.numbering (B.texts backend.now) }
    //~ requires guesses { AreGuesses B.Symbol.symbol_of
    //~     (entry_text B.numbering (B.texts backend.now)) guesses.now }
    //~ ensures count { length found.new ≡ length found.old }
    //~ ensures found { AreResolved B.Symbol.symbol_of
    //~     (entry_text B.numbering (B.texts backend.now)) guesses.now found.new }
{
    for (at, guess) in guesses.iter().enumerate() {
        found[at] = resolve_guess(backend, *guess);
    }
}

/// Returns the text of the symbol of a guess, or the empty text if there is none.
///
/// The symbol is resolved with a check, because it is made of a number: a symbol type without its laws may make another one of it
/// than the backend gave.
#[inline(always)]
fn resolve_guess<B: Store>(backend: &B, guess: Option<usize>) -> &str
    //~ requires texts { IsInternerList B.numbering (B.texts backend.now) }
    //~ requires guess { IsGuess B.Symbol.symbol_of (entry_text B.numbering (B.texts backend.now))
    //~     guess }
    //~ ensures { IsResolved B.Symbol.symbol_of (entry_text B.numbering (B.texts backend.now)) guess
    //~     result.now }
{
    let Some(number) = guess else {
        return "";
    };
    let Some(symbol) = B::Symbol::try_from_usize(number) else {
        return "";
    };
    match backend.resolve(symbol) {
        Some(text) => text,
        None => "",
    }
}

/// Returns the symbol with this number, if any.
#[inline(always)]
fn symbol_with<S: Symbol>(number: Option<usize>) -> Option<S>
    //~ ensures { result ≡ option_and_then S.symbol_of number }
{
    match number {
        Some(number) => S::try_from_usize(number),
        None => None,
    }
}
