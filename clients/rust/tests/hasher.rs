//! Hashers: `DefaultHashBuilder` as the hasher of something else, what an interner answers under each, and how long texts take
//! that are chosen to have one hash code.

use std::cell::Cell;
use std::collections::{HashMap, HashSet, VecDeque};
use std::ffi::{c_int, c_long};
use std::hash::{BuildHasher, BuildHasherDefault, DefaultHasher, Hasher, RandomState};
use std::time::Duration;

mod common;

use common::Backend;
use string_interner::backend::{BucketBackend, BufferBackend};
use string_interner::hasher::{FixedHashBuilder, KeyedHashBuilder};
use string_interner::{
    DefaultBackend, DefaultHashBuilder, DefaultStringInterner, DefaultSymbol, StringInterner,
};

#[test]
fn hashes_a_map() {
    let mut interner = StringInterner::default();
    let mut lengths: HashMap<DefaultSymbol, usize, DefaultHashBuilder> = HashMap::default();
    for text in ["Tiger", "", "語"] {
        lengths.insert(interner.get_or_intern(text), text.len());
    }
    for (symbol, text) in &interner {
        assert_eq!(lengths[&symbol], text.len());
    }
}

/// What hashes byte by byte is not all alike where bytes are 255.
fn tells_bytes<H: BuildHasher>(builder: &H) {
    let pairs = [(255_u8, 1_u8), (1, 255), (255, 255), (1, 1)];
    let rows = (0..16).map(|at| {
        let mut row = VecDeque::from([0_u8; 16]);
        row[at] = 255;
        row
    });
    let codes: HashSet<u64> = pairs.iter().map(|pair| builder.hash_one(pair)).collect();
    assert_eq!(codes.len(), pairs.len());
    assert_eq!(
        rows.map(|row| builder.hash_one(row))
            .collect::<HashSet<u64>>()
            .len(),
        16
    );
}

#[test]
fn a_byte_of_any_value_counts() {
    tells_bytes(&DefaultHashBuilder);
    tells_bytes(&FixedHashBuilder);
    tells_bytes(&KeyedHashBuilder::new(1, 2));
}

#[test]
fn codes_have_the_keys_of_the_process() {
    let [one, other] = [DefaultHashBuilder; 2];
    assert_eq!(one.hash_one("Tiger"), other.hash_one("Tiger"));
    assert_ne!(one.hash_one("Tiger"), one.hash_one("Horse"));
    let without_keys = BuildHasherDefault::<DefaultHasher>::default();
    assert_ne!(one.hash_one("Tiger"), without_keys.hash_one("Tiger"));
}

#[test]
fn an_interner_takes_it() {
    let mut interner: DefaultStringInterner = StringInterner::with_hasher(DefaultHashBuilder);
    let symbol = interner.get_or_intern_static("Tiger");
    assert_eq!(interner.resolve(symbol), Some("Tiger"));
}

#[test]
fn an_interner_answers_alike_under_each() {
    let texts = ["Tiger", "Horse", "Tiger", ""];
    let usual: StringInterner<BufferBackend> = texts.into_iter().collect();
    let mut fixed = StringInterner::<BufferBackend, FixedHashBuilder>::with_capacity(2);
    let mut keyed = StringInterner::<BufferBackend, _>::with_hasher(KeyedHashBuilder::new(1, 2));
    fixed.extend(texts);
    keyed.extend(texts);
    assert!(usual.iter().eq(fixed.iter()) && usual.iter().eq(keyed.iter()));
    let read = StringInterner::<BufferBackend, FixedHashBuilder>::from_json(&usual.to_json());
    assert!(read.unwrap() == fixed && keyed.clone() == keyed);
    assert_eq!(keyed.clone().get("Horse"), usual.get("Horse"));
}

#[test]
fn a_call_hashes_its_text_once() {
    /// Counts the hashers that it makes.
    struct Counting<'a>(&'a Cell<usize>);

    impl BuildHasher for Counting<'_> {
        type Hasher = DefaultHasher;

        fn build_hasher(&self) -> DefaultHasher {
            self.0.set(self.0.get() + 1);
            DefaultHasher::new()
        }
    }

    let made = Cell::new(0);
    let mut interner = StringInterner::<DefaultBackend, _>::with_hasher(Counting(&made));
    let path = interner.get_or_intern("bin/cargo");
    assert_eq!(made.take(), 1);
    assert!(interner.contains("bin/cargo"));
    assert_eq!(made.take(), 1);
    assert!(interner.get_or_intern_part(path, ..3).is_some());
    assert_eq!(made.take(), 1, "of a new text");
    assert!(interner.get_or_intern_part(path, ..3).is_some());
    assert_eq!(made.take(), 1, "of a known text");
}

/// Interns in an interner that may have any hasher.
fn intern_all<B: Backend, H: BuildHasher>(
    interner: &mut StringInterner<B, H>,
    texts: &[&str],
) -> Vec<B::Symbol> {
    texts
        .iter()
        .map(|text| interner.get_or_intern(text))
        .collect()
}

#[test]
fn an_interner_takes_any_builder() {
    /// Hashes all to one number.
    #[derive(Default)]
    struct Seven;

    impl Hasher for Seven {
        fn write(&mut self, _: &[u8]) {}

        fn finish(&self) -> u64 {
            7
        }
    }

    let texts = ["Tiger", "Horse", "Tiger", ""];
    let mut usual = StringInterner::default();
    let mut random = StringInterner::<DefaultBackend, _>::with_hasher(RandomState::new());
    let mut same = StringInterner::<DefaultBackend, BuildHasherDefault<DefaultHasher>>::new();
    let mut seven = StringInterner::<DefaultBackend, BuildHasherDefault<Seven>>::with_capacity(2);
    let symbols = intern_all(&mut usual, &texts);
    assert_eq!(symbols, intern_all(&mut random, &texts));
    assert_eq!(symbols, intern_all(&mut same, &texts));
    assert_eq!(symbols, intern_all(&mut seven, &texts));
    assert!(seven.clone() == seven && seven.len() == 3);
}

#[test]
fn debug_shows_no_key() {
    let shown = format!("{:?}", KeyedHashBuilder::new(77_777, 88_888));
    assert_eq!(shown, "KeyedHashBuilder { .. }");
}

/// How many bytes each text has.
const LENGTH: usize = 32;

/// The state of the fixed hasher after 16 bytes more.
fn state_after(block: &[u8; 16], state: u64) -> u64 {
    let half = |from: usize| u64::from_le_bytes(block[from..from + 8].try_into().unwrap());
    let product = u128::from(half(0) ^ state) * u128::from(half(8) ^ 0x9E37_79B9_7F4A_7C15);
    (product >> 64) as u64 ^ product as u64
}

/// Spells a number by 16 letters.
fn spell(number: u64) -> [u8; 16] {
    let mut rest = number.wrapping_mul(0xD134_2543_DE82_EF95);
    [0; 16].map(|_: u8| {
        let letter = b'a' + (rest % 26) as u8;
        rest = (rest / 26).wrapping_add(number << 32);
        letter
    })
}

/// Returns texts that have one code under the fixed hasher.
///
/// Where the state after 16 letters is 8 letters, these as the next half of a block make the product 0, whatever the other
/// half is.
fn chosen_texts(count: u64) -> Vec<String> {
    let (block, state) = (0..)
        .map(|number| {
            let block = spell(number);
            let state = state_after(&block, 0x243F_6A88_85A3_08D3 + LENGTH as u64);
            (block, state.to_le_bytes())
        })
        .find(|(_, state)| state.iter().all(u8::is_ascii_graphic))
        .unwrap();
    let front = String::from_utf8([&block[..], &state].concat()).unwrap();
    (0..count)
        .map(|number| format!("{front}{number:08}"))
        .collect()
}

fn other_texts(count: u64) -> Vec<String> {
    (0..count)
        .map(|number| format!("{number:0LENGTH$}"))
        .collect()
}

/// What this thread has computed so far: the time that other programs take does not count.
fn processor_time() -> Duration {
    #[repr(C)]
    struct Time {
        seconds: c_long,
        nanoseconds: c_long,
    }
    extern "C" {
        fn clock_gettime(clock: c_int, time: *mut Time) -> c_int;
    }
    /// The clock of Linux for the processor time of the thread.
    const THREAD: c_int = 3;
    let mut time = Time {
        seconds: 0,
        nanoseconds: 0,
    };
    // SAFETY: the call writes a time there.
    assert_eq!(unsafe { clock_gettime(THREAD, &mut time) }, 0);
    Duration::new(time.seconds as u64, time.nanoseconds as u32)
}

/// The least time of some rounds to intern the texts.
fn least_time<B, H>(
    rounds: u32,
    texts: &[String],
    make: impl Fn() -> StringInterner<B, H>,
) -> Duration
where
    B: Backend,
    StringInterner<B, H>: for<'t> Extend<&'t String>,
{
    let time = |_| {
        let mut interner = make();
        let begun = processor_time();
        interner.extend(texts);
        let took = processor_time() - begun;
        assert_eq!((&interner).into_iter().len(), texts.len());
        took
    };
    (0..rounds).map(time).min().unwrap()
}

/// Fails if chosen texts take more than three times as long as others.
#[track_caller]
fn assert_no_longer<B, H>(make: impl Fn() -> StringInterner<B, H>)
where
    B: Backend,
    StringInterner<B, H>: for<'t> Extend<&'t String>,
{
    let (chosen, others) = (chosen_texts(80_000), other_texts(80_000));
    let times = || (least_time(1, &chosen, &make), least_time(3, &others, &make));
    assert_once(times, |took, usual| took < 3 * usual);
}

/// Compares two times, and again if they are not as they should be: a machine may be slow for a while, and one of them alone see it.
#[track_caller]
fn assert_once(times: impl Fn() -> (Duration, Duration), is_right: fn(Duration, Duration) -> bool) {
    let (took, usual) = (0..6)
        .map(|_| times())
        .find(|(took, usual)| is_right(*took, *usual))
        .unwrap_or_else(times);
    assert!(is_right(took, usual), "{took:?} beside {usual:?}");
}

#[test]
fn chosen_texts_take_no_longer_than_others_under_keys() {
    let keyed = || StringInterner::<DefaultBackend, _>::with_hasher(KeyedHashBuilder::new(3, 4));
    assert_no_longer(StringInterner::default);
    assert_no_longer(DefaultStringInterner::<BufferBackend>::new);
    assert_no_longer(|| DefaultStringInterner::<BucketBackend>::with_capacity(9));
    assert_no_longer(|| DefaultStringInterner::<DefaultBackend>::from_json("[]").unwrap());
    assert_no_longer(|| StringInterner::<DefaultBackend, _>::with_hasher(RandomState::new()));
    assert_no_longer(keyed);
    assert_no_longer(|| keyed().clone());
}

/// So they are rightly chosen.
#[test]
fn chosen_texts_take_longer_under_the_fixed_hasher() {
    let fixed = StringInterner::<DefaultBackend, FixedHashBuilder>::new;
    let (chosen, others) = (chosen_texts(8_000), other_texts(8_000));
    let times = || (least_time(1, &chosen, fixed), least_time(3, &others, fixed));
    assert_once(times, |took, usual| took > 10 * usual);
}
