//! What is measured, by name.

use crate::by_c::ByC;
use crate::interner::{Interner, MapAndList, Set, UnderDefault, UnderFnv};
use crate::phases::{Budget, Inputs, Results};
use crate::{ours, phases};
use string_interner::backend::{BucketBackend, BufferBackend, StringBackend};

const BACKENDS: [&str; 3] = ["string", "bucket", "buffer"];
const INDEXES: [&str; 2] = ["Index", "TaggedIndex"];
const HASHERS: [&str; 4] = ["FixedState", "FoldState", "RandomState", "SeededHasher"];

/// A kind of interner.
pub struct Kind {
    /// Library, backend, index and hasher, `-` where there is none to choose.
    pub name: String,
    /// Makes rounds, or where none is wanted fills an interner and leaves it on the heap.
    pub measure: Box<dyn Fn(&Inputs, Budget) -> Results>,
}

fn of_peer<I: Interner + 'static>(name: &str) -> Kind {
    Kind {
        name: name.to_string(),
        measure: Box::new(phases::measure::<I>),
    }
}

/// The library's kind of this number, which counts through the backends, in each the indexes, and in each the hashers.
fn of_ours(number: usize) -> Kind {
    let hasher = HASHERS[number % HASHERS.len()];
    let index = INDEXES[number / HASHERS.len() % 2];
    let backend = BACKENDS[number / HASHERS.len() / 2];
    Kind {
        name: format!("ours/{backend}/{index}/{hasher}"),
        measure: Box::new(move |inputs, budget| ours::measure(number as u32, inputs, budget)),
    }
}

/// All kinds, the peers first.
pub fn all() -> Vec<Kind> {
    let peers = [
        of_peer::<UnderFnv<StringBackend>>("original/string/-/FNV"),
        of_peer::<UnderFnv<BucketBackend>>("original/bucket/-/FNV"),
        of_peer::<UnderFnv<BufferBackend>>("original/buffer/-/FNV"),
        of_peer::<UnderDefault<StringBackend>>("original/string/-/default"),
        of_peer::<UnderDefault<BucketBackend>>("original/bucket/-/default"),
        of_peer::<UnderDefault<BufferBackend>>("original/buffer/-/default"),
        of_peer::<MapAndList>("HashMap and Vec/-/-/default"),
        of_peer::<Set>("IndexSet/-/-/default"),
        of_peer::<ByC<false>>("ours through C/string/-/UTF-8"),
        of_peer::<ByC<true>>("ours through C/string/-/bytes"),
    ];
    let ours = (0..6 * HASHERS.len()).map(of_ours);
    peers.into_iter().chain(ours).collect()
}
