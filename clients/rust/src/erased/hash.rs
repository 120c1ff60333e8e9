//! Hashers: they compute the hash code by which an index finds a text.
//!
//! An index is correct under every hasher. The hasher decides how fast look-ups are, and whether someone who chooses the
//! texts can make them slow: take [`SeededHasher`] for texts from strangers, and [`FoldState`] for all others.

//~ ghost use Rattle.std.specs.Prelude.{◌≡◌, ℕ};
//~ ghost use Rattle.string_interner.specs.Text.{Text};
//~ ghost use Rattle.string_interner.specs.Hasher.{fnv_1a, one_write};

use crate::rt::prelude::*; pub mod seeded;

pub use seeded::{SeededHash, SeededState};
use crate::rt::hash::{BuildHasher, BuildHasherDefault, FoldHasher, Hasher};

/// The default hasher of an interner.
pub type DefaultHashBuilder = FixedState;

/// Hashes texts: gives each text a 64-bit code.
///
/// An index is correct under every hasher, even a constant one, and fast under one that spreads its codes.
///
/// | Hasher | Codes | Take it when |
/// |---|---|---|
/// | [`FoldState`] | the same in each run | you trust where the texts come from: it is the fastest |
/// | [`FixedState`] | the same in each run | the same, and texts are short, or you want the codes of 64-bit FNV-1a |
/// | [`SeededHasher`] | those of two keys | strangers may choose the texts, and you have 128 random bits |
/// | [`StdHasher`] over `RandomState` | other ones in each run | the same, and they may see codes, or time single calls |
pub trait TextHasher: Sized {
    //~ /// The code of a text. It depends on the hasher's value and the text alone.
    //~ ghost code: { Self → Text → ℕ };

    /// Returns the code of a text.
    fn hash_text(&self, text: &str) -> u64;
        //~ ensures { result ≡ code self.now text.now };
}

/// A hasher of which another can be made that gives the same codes.
pub trait CopyHasher: Sized {
    /// Returns a hasher that gives each text the same code.
    fn same(&self) -> Self;
        //~ ensures { (text : Text) → Self.code result text ≡ Self.code self.now text };
}

impl<H: TextHasher + Copy> CopyHasher for H {
    fn same(&self) -> Self {
        *self
    }
}

/// 64-bit FNV-1a over the bytes of the text: fast on short texts, with the same codes in each run.
///
/// Not resistant to collisions: texts can be chosen to have one code. Where they come from someone who may do so, take
/// [`SeededHasher`] under random keys.
#[derive(Clone, Copy, Debug, Default, PartialEq, Eq)]
pub struct FixedState;

/// The code starts from the first and is multiplied by the second after each byte: the 64-bit offset basis and prime
/// that Fowler, Noll and Vo published for their hash.
const OFFSET_BASIS: u64 = 0xCBF2_9CE4_8422_2325;

const PRIME: u64 = 0x100_0000_01B3;

impl TextHasher for FixedState {
    //~ ghost code = { λ _ text. fnv_1a text };

    #[inline]
    fn hash_text(&self, text: &str) -> u64 {
        text.bytes().fold(
            OFFSET_BASIS,
            |code: u64, byte| (code ^ u64::from(byte)).wrapping_mul(PRIME),
        )
    }
}

/// Hashes texts by a hasher of the standard library: the code of a text is what that hasher finishes with, once all
/// bytes of the text were written to it in one call.
///
/// It takes any `std::hash::BuildHasher`:
///
/// - `BuildHasherDefault<FoldHasher>`, which is [`FoldState`], reads 16 bytes at a time, where the default reads one: it
///   is fast on long texts too. Its seed is fixed, so codes are the same in each run, and texts can be chosen to have
///   one code.
/// - [`SeededState`], which makes [`SeededHasher`], is about as fast, under two keys that you hand in. As long as the keys
///   are random and stay secret, no way is known to choose many texts that share a code.
/// - `RandomState` is SipHash-1-3 under keys that the system draws. It is slower. It was made against attackers who see
///   codes, too.
/// - `BuildHasherDefault<DefaultHasher>` is the same under keys that are 0: it protects from nothing.
///
/// An index takes the low bits of a code. These four are made to spread them, which is not proved; a builder of your own
/// should, too.
///
/// ```ignore
/// let keyed = StdHasher::new(RandomState::new(&rt)?);
/// let names = StringInterner::<DefaultBackend, StdHasher<RandomState>>::with_hasher(alloc, keyed);
/// ```
#[derive(Clone, Copy, Debug, Default)]
pub struct StdHasher<S> {
    builder: S,
}

/// The hasher of the standard library's maps: fast, with the same codes in each run.
///
/// It protects less than any other against chosen texts. It mixes a block of 16 bytes by one multiplication, by the first
/// half of the block and what came before it. Where what came before happens to be eight ASCII bytes, a block that begins
/// with these makes a product of 0, whatever its other eight bytes are. A prefix for which this is so is found in a few
/// thousand tries, and then any number of texts have one code. Where someone may choose texts, take [`SeededHasher`].
pub type FoldState = StdHasher<BuildHasherDefault<FoldHasher>>;

/// The seeded hasher: about as fast as [`FoldState`], under the two keys of a [`SeededState`]. Without the keys no way is
/// known to choose many texts that share a code.
pub type SeededHasher = StdHasher<SeededState>;

impl<S: BuildHasher> StdHasher<S> {
    /// Makes a hasher that hashes each text by a hasher of this builder.
    pub fn new(builder: S) -> Self
        //~ ensures { result ≡ record { builder = builder } }
    {
        StdHasher { builder }
    }
}

impl<S: BuildHasher> TextHasher for StdHasher<S> {
    //~ ghost code = { λ hasher text. one_write S.Hasher.write S.Hasher.finish
    //~     (S.build_hasher hasher.builder) text };

    #[inline]
    fn hash_text(&self, text: &str) -> u64 {
        let mut state = self.builder.build_hasher();
        state.write(text.as_bytes());
        state.finish()
    }
}
