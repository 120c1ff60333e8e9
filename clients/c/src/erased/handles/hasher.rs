//! The hasher of an interner. It is chosen when the interner is made.

//~ ghost use Rattle.std.specs.Prelude.{◌≡◌};
//~ ghost use Rattle.string_interner.specs.Text.{Text};
//~ ghost use Rattle.handles.specs.Hasher.{HasHasherCode, chosen_code, code_by, fold_code, seeded_code, sip_code};

use crate::rt::prelude::*; use crate::rt::hash::keyed_hasher;
use crate::rt::hash::Hasher;
use crate::erased::dedup::{FoldState, SeededHasher, SeededState, TextHasher};

/// The hashers that a handle may have.
#[derive(Clone, Copy)]
pub enum HasherKind {
    /// The fast one, with the same hash codes in each run.
    Fixed,
    /// SipHash-1-3, under the caller's keys.
    SipHash,
    /// About as fast as the first, under the caller's keys.
    Seeded,
}

impl HasherKind {
    /// Returns the hasher that has this code in C, if there is one.
    pub fn from_code(code: u32) -> Option<HasherKind>
        //~ ensures { HasHasherCode code result }
    {
        match code {
            0 => Some(HasherKind::Fixed),
            1 => Some(HasherKind::SipHash),
            2 => Some(HasherKind::Seeded),
            _ => None,
        }
    }
}

/// How an interner hashes its texts. This decides how fast it is, and changes no result.
#[derive(Clone, Copy)]
pub enum ChosenHasher {
    /// The fast one, with the same hash codes in each run. Do not use it if strangers choose the texts.
    Fixed(FoldState),
    /// SipHash-1-3 under two keys. Without them no way is known to predict its hash codes.
    Keyed { key0: u64, key1: u64 },
    /// The seeded hasher under two keys. Without them no way is known to choose many texts that share a hash code.
    Seeded(SeededHasher),
}

impl ChosenHasher {
    /// Returns the fast hasher, whose codes are the same in each run.
    pub fn fixed() -> ChosenHasher
        //~ ensures { (text : Text) → chosen_code result text ≡ fold_code text }
    {
        ChosenHasher::Fixed(FoldState::default())
    }

    /// Returns SipHash-1-3 under these keys.
    pub fn siphash(key0: u64, key1: u64) -> ChosenHasher
        //~ ensures { (text : Text) → chosen_code result text ≡ sip_code key0 key1 text }
    {
        ChosenHasher::Keyed { key0, key1 }
    }

    /// Returns the seeded hasher under these keys.
    pub fn seeded(key0: u64, key1: u64) -> ChosenHasher
        //~ ensures { (text : Text) → chosen_code result text ≡ seeded_code key0 key1 text }
    {
        ChosenHasher::Seeded(SeededHasher::new(SeededState::new(key0, key1)))
    }

    /// Returns the hasher of this kind under these keys.
    pub fn of(kind: HasherKind, key0: u64, key1: u64) -> ChosenHasher
        //~ ensures { (text : Text) → chosen_code result text ≡ code_by kind key0 key1 text }
    {
        match kind {
            HasherKind::Fixed => ChosenHasher::fixed(),
            HasherKind::SipHash => ChosenHasher::siphash(key0, key1),
            HasherKind::Seeded => ChosenHasher::seeded(key0, key1),
        }
    }
}

/// Returns the code of a text under SipHash-1-3.
///
/// Not inlined, so that it costs a look-up under a fast hasher only a branch.
#[inline(never)]
fn keyed_code(key0: u64, key1: u64, text: &str) -> u64
    //~ ensures { result ≡ sip_code key0 key1 text.now }
{
    let mut state = keyed_hasher(key0, key1);
    state.write(text.as_bytes());
    state.finish()
}

impl TextHasher for ChosenHasher {
    //~ ghost code = { chosen_code };

    #[inline(always)]
    fn hash_text(&self, text: &str) -> u64 {
        match self {
            ChosenHasher::Fixed(hasher) => hasher.hash_text(text),
            ChosenHasher::Keyed { key0, key1 } => keyed_code(*key0, *key1, text),
            ChosenHasher::Seeded(hasher) => hasher.hash_text(text),
        }
    }
}
