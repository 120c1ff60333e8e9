//! Hashers: how an interner finds its texts.
//!
//! | Hasher | Its hash codes | Use it if |
//! |---|---|---|
//! | [`DefaultHashBuilder`] | depend on keys that each process draws at random; a fast hash | in most cases |
//! | [`KeyedHashBuilder`] | depend on the keys that you pass; SipHash-1-3 | strangers may time single calls; each interner needs keys of its own, or the same keys in each process |
//! | [`FixedHashBuilder`] | are the same in each process | speed counts, and no stranger chooses the texts |
//! | any other [`BuildHasher`], such as std's `RandomState` | are those of its hasher | you have one |
//!
//! ```
//! use string_interner::{hasher::FixedHashBuilder, DefaultBackend, StringInterner};
//!
//! let mut names = StringInterner::<DefaultBackend, FixedHashBuilder>::new();
//! let tiger = names.get_or_intern("Tiger");
//! assert_eq!(names.get("Tiger"), Some(tiger));
//! ```
//!
//! Look-ups work under every builder, even one whose hashes are all equal. What an interner returns does not depend on its hasher,
//! as long as that gives equal texts equal hashes.

use crate::erased::hash::{CopyHasher, SeededHash, SeededState, TextHasher};
use crate::rt::hash::{keyed_hasher, DefaultHasher, FoldHasher};
use core::fmt;
use core::hash::{BuildHasher, Hash, Hasher};

/// A builder of hashers as the proved code takes it.
pub(crate) struct HasherAdapter<H>(pub H);

impl<H: BuildHasher> TextHasher for HasherAdapter<H> {
    /// Returns the hash of a text. Its halves are joined, because the index takes the lower one alone, and a hasher may spread only
    /// the upper one well.
    #[inline(always)]
    // A builder may have a `hash_one` of its own, which the original does not call either.
    #[allow(clippy::manual_hash_one)]
    fn hash_text(&self, text: &str) -> u64 {
        let mut hasher = self.0.build_hasher();
        text.hash(&mut hasher);
        let code = hasher.finish();
        code ^ (code >> 32)
    }
}

impl<H: Clone> CopyHasher for HasherAdapter<H> {
    fn same(&self) -> Self {
        HasherAdapter(self.0.clone())
    }
}

/// Defines the hasher that a builder makes. It passes over the byte that ends a `str` if what it is made of hashes lengths: over one
/// behind bytes.
macro_rules! text_hasher {
    ($(#[$doc:meta])* $name:ident, $inner:ty, $hashes_lengths:expr) => {
        $(#[$doc])*
        #[derive(Clone, Copy)]
        pub struct $name {
            inner: $inner,
            is_behind_bytes: bool,
        }

        impl $name {
            #[inline(always)]
            fn of(inner: $inner) -> Self {
                $name {
                    inner,
                    is_behind_bytes: false,
                }
            }
        }

        impl Hasher for $name {
            #[inline(always)]
            fn write(&mut self, bytes: &[u8]) {
                self.inner.write(bytes);
                self.is_behind_bytes = $hashes_lengths;
            }

            #[inline(always)]
            fn write_u8(&mut self, byte: u8) {
                if !self.is_behind_bytes || byte != 0xff {
                    self.inner.write(&[byte]);
                }
                self.is_behind_bytes = false;
            }

            #[inline(always)]
            fn finish(&self) -> u64 {
                self.inner.finish()
            }
        }

        impl fmt::Debug for $name {
            /// Shows no key and no state.
            fn fmt(&self, f: &mut fmt::Formatter<'_>) -> fmt::Result {
                f.debug_struct(stringify!($name)).finish_non_exhaustive()
            }
        }
    };
}

text_hasher! {
    /// The hasher of [`DefaultHashBuilder`].
    SeededTextHasher, SeededHash, true
}
text_hasher! {
    /// The hasher of [`FixedHashBuilder`].
    FixedTextHasher, FoldHasher, true
}
text_hasher! {
    /// The hasher of [`KeyedHashBuilder`].
    KeyedTextHasher, DefaultHasher, false
}

/// The hasher of an interner whose type names none: a fast hash under random keys, which each process draws once.
///
/// Without the keys no way is known to choose many texts with one hash code, except to someone who can see hash codes or time
/// single calls. Against such a one use [`KeyedHashBuilder`] or std's `RandomState`.
///
/// Without the feature `std` there is nothing to draw from. The keys are then made of the address where the program lies, which
/// is random only if the system's loader makes it so.
///
/// On `wasm32-unknown-unknown` the keys are the same in each run, with `std`, too, which makes them of addresses there: such a program
/// gets nothing random unless its host hands it over. If strangers choose the texts, have the host draw two numbers, as JavaScript's
/// `crypto.getRandomValues` does, and take [`KeyedHashBuilder`] under these keys.
#[derive(Clone, Copy, Debug, Default)]
pub struct DefaultHashBuilder;

impl BuildHasher for DefaultHashBuilder {
    type Hasher = SeededTextHasher;

    #[inline(always)]
    fn build_hasher(&self) -> SeededTextHasher {
        SeededTextHasher::of(process_keys().build_hasher())
    }
}

#[cfg(feature = "std")]
#[inline(always)]
fn process_keys() -> &'static SeededState {
    use std::hash::RandomState;
    use std::sync::OnceLock;
    static KEYS: OnceLock<SeededState> = OnceLock::new();
    KEYS.get_or_init(|| {
        let random = RandomState::new();
        SeededState::new(random.hash_one(0_u8), random.hash_one(1_u8))
    })
}

#[cfg(not(feature = "std"))]
fn process_keys() -> SeededState {
    static PLACE: u8 = 0;
    let place = core::ptr::addr_of!(PLACE) as u64;
    SeededState::new(
        place.wrapping_mul(0x6a09_e667_f3bc_c909),
        place.wrapping_mul(0xbb67_ae85_84ca_a73b),
    )
}

/// A fast hasher without keys. Its hash codes are the same in each process.
///
/// Anyone can find any number of texts with one hash code in less than a second, and interning them takes time that grows with
/// the square of their count. So do not use it if strangers choose the texts.
#[derive(Clone, Copy, Debug, Default)]
pub struct FixedHashBuilder;

impl BuildHasher for FixedHashBuilder {
    type Hasher = FixedTextHasher;

    #[inline(always)]
    fn build_hasher(&self) -> FixedTextHasher {
        FixedTextHasher::of(FoldHasher::default())
    }
}

/// SipHash-1-3 under two keys.
///
/// If the keys are random and secret, no way is known to predict its hash codes. `Debug` does not show the keys.
#[derive(Clone, Copy)]
pub struct KeyedHashBuilder {
    key0: u64,
    key1: u64,
}

impl KeyedHashBuilder {
    /// Returns the builder of hashers under these keys.
    #[must_use]
    pub fn new(key0: u64, key1: u64) -> Self {
        KeyedHashBuilder { key0, key1 }
    }
}

impl BuildHasher for KeyedHashBuilder {
    type Hasher = KeyedTextHasher;

    #[inline]
    fn build_hasher(&self) -> KeyedTextHasher {
        KeyedTextHasher::of(keyed_hasher(self.key0, self.key1))
    }
}

impl fmt::Debug for KeyedHashBuilder {
    fn fmt(&self, f: &mut fmt::Formatter<'_>) -> fmt::Result {
        f.debug_struct("KeyedHashBuilder").finish_non_exhaustive()
    }
}
