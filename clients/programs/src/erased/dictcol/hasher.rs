//! The hasher of lines.

//~ ghost use Rattle.std.specs.Prelude.{◌≡◌, ◌∷◌, []};
//~ ghost use Rattle.std.specs.Int.{w64, from_le_bytes};
//~ ghost use Rattle.string_interner.specs.Text.{Text};

use crate::rt::prelude::*; use crate::dictcol::fault::Fault;
use crate::rt::random::RandomSource;
use crate::erased::dedup::{SeededHasher, SeededState, TextHasher};

/// The seeded hasher under random keys. Lines with one hash code would make the program slow, and no way is known to choose
/// many such lines without the keys.
#[derive(Clone, Copy)]
pub struct LineHasher {
    seeded: SeededHasher,
}

impl LineHasher {
    /// Draws keys, and returns the hasher with them.
    pub fn draw(rt: &HostRuntime) -> Result<LineHasher, Fault> {
        let mut keys = [[0; 8]; 2];
        rt.fill_bytes(keys.as_flattened_mut())
            .map_err(Fault::NoKeys)?;
        Ok(LineHasher::with_keys(keys))
    }

    /// Returns the hasher whose keys these bytes are, the lowest first.
    fn with_keys(keys: [[u8; 8]; 2]) -> LineHasher
        //~ ensures { (one other : Text) → keys ≡ one ∷ other ∷ [] → result.seeded.builder
        //~     ≡ record { key0 = from_le_bytes w64 one; key1 = from_le_bytes w64 other } }
    {
        let [one, other] = keys;
        let keys = SeededState::new(u64::from_le_bytes(one), u64::from_le_bytes(other));
        LineHasher {
            seeded: SeededHasher::new(keys),
        }
    }
}

impl TextHasher for LineHasher {
    //~ ghost use Rattle.dictcol.specs.Hasher.{seeded_code};

    //~ ghost code = { λ hasher text. seeded_code hasher.seeded.builder text };

    #[inline]
    fn hash_text(&self, text: &str) -> u64 {
        self.seeded.hash_text(text)
    }
}
